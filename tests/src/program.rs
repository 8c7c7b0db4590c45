//! Running a built program on words and standard input.

use oracle::programs::PROGRAMS;
use std::io::{Result, Write};
use std::path::PathBuf;
use std::process::{Command, Stdio};
use std::thread;
use std::time::Duration;

/// What a program answered; the status is none where a signal ended it.
pub struct Answer {
    pub status: Option<i32>,
    pub stdout: Vec<u8>,
    pub stderr: Vec<u8>,
}

/// The folder of the built programs.
pub struct Programs {
    folder: PathBuf,
}

impl Programs {
    pub fn in_folder(folder: &str) -> Programs {
        Programs {
            folder: PathBuf::from(folder),
        }
    }

    /// A program that isn't in the folder, if there is one.
    pub fn missing(&self) -> Option<&'static str> {
        let mut names = PROGRAMS.iter().map(|&(name, _)| name);
        names.find(|name| !self.folder.join(name).is_file())
    }

    /// Runs the program of that name with `words` as arguments and `input` as standard input.
    pub fn run(&self, name: &str, words: &[String], input: &[u8]) -> Result<Answer> {
        self.run_in_pieces(name, words, &[input])
    }

    /// As `run`, with a pause after each piece, so that the program reads them one by one.
    pub fn run_in_pieces(&self, name: &str, words: &[String], pieces: &[&[u8]]) -> Result<Answer> {
        let mut child = Command::new(self.folder.join(name))
            .args(words)
            .stdin(Stdio::piped())
            .stdout(Stdio::piped())
            .stderr(Stdio::piped())
            .spawn()?;
        let mut stdin = child.stdin.take().expect("the standard input is piped");
        let output = thread::scope(|scope| {
            // In a thread of its own: a program may write before it has read all.
            scope.spawn(move || {
                for (index, piece) in pieces.iter().enumerate() {
                    if index > 0 {
                        thread::sleep(Duration::from_millis(5));
                    }
                    // A program may refuse before it has read all: that is no failure here.
                    if stdin.write_all(piece).is_err() {
                        break;
                    }
                }
            });
            child.wait_with_output()
        })?;
        Ok(Answer {
            status: output.status.code(),
            stdout: output.stdout,
            stderr: output.stderr,
        })
    }
}
