//! What a program has to answer, and how an answer differs from it.

use crate::program::Answer;
use crate::refusals::words_in;
use crate::report::Difference;
use std::fmt::Display;

/// What is expected of a program.
pub enum Expected {
    /// Status 0, exactly this text, and nothing on standard error.
    Says(String),
    /// Status 1, no text, and one line on standard error that begins like this; where that names a
    /// fault and where it is, the fault's words follow, and nothing else.
    Refuses(String),
}

impl Expected {
    /// What the oracle answers in the place of the program `name`; a refusal shows the part of it
    /// that the program has to say alike.
    pub fn of(name: &str, answer: Result<String, impl Display>) -> Expected {
        match answer {
            Ok(text) => Expected::Says(text),
            Err(refusal) => Expected::Refuses(format!("{name}: {refusal}: ")),
        }
    }

    /// Compares an answer; `title` and `input` go into the difference, if there is one.
    pub fn compare(
        &self,
        answer: std::io::Result<Answer>,
        title: String,
        input: &[u8],
    ) -> Option<Difference> {
        let answers = match answer {
            Ok(answer) if self.is_met_by(&answer) => return None,
            Ok(answer) => self.both(&answer),
            Err(error) => format!("    the program can't be run: {error}"),
        };
        Some(Difference {
            title,
            input: input.to_vec(),
            answers,
        })
    }

    fn is_met_by(&self, answer: &Answer) -> bool {
        match self {
            Expected::Says(text) => {
                answer.status == Some(0)
                    && answer.stdout == text.as_bytes()
                    && answer.stderr.is_empty()
            }
            Expected::Refuses(beginning) => {
                answer.status == Some(1)
                    && answer.stdout.is_empty()
                    && refuses(&answer.stderr, beginning)
            }
        }
    }

    /// Both answers in words.
    fn both(&self, answer: &Answer) -> String {
        let status = answer
            .status
            .map_or("none".to_string(), |status| status.to_string());
        let stdout = String::from_utf8_lossy(&answer.stdout);
        let stderr = String::from_utf8_lossy(&answer.stderr);
        let expected = match self {
            Expected::Says(text) => {
                let (theirs, ours) = first_difference(&stdout, text);
                let found = format!(
                    "status {status}, stdout {theirs}, stderr {}",
                    short(&stderr)
                );
                return format!("    expected: status 0, stdout {ours}\n    found:    {found}");
            }
            Expected::Refuses(beginning) => format!("status 1, one line: {beginning}…"),
        };
        let found = format!(
            "status {status}, stdout {}, stderr {}",
            short(&stdout),
            short(&stderr)
        );
        format!("    expected: {expected}\n    found:    {found}")
    }
}

/// Whether what stands on standard error is one line that begins like this, and tells a fault in its words.
fn refuses(stderr: &[u8], beginning: &str) -> bool {
    let Some(line) = std::str::from_utf8(stderr)
        .ok()
        .and_then(|text| text.strip_suffix('\n'))
    else {
        return false;
    };
    let Some(rest) = line.strip_prefix(beginning) else {
        return false;
    };
    !line.contains('\n') && words_in(beginning).is_none_or(|words| rest == words)
}

/// Two texts from the first word on in which they differ, to the end of that line.
fn first_difference(theirs: &str, ours: &str) -> (String, String) {
    let mut their_lines = theirs.split_inclusive('\n');
    let mut our_lines = ours.split_inclusive('\n');
    let mut line = 0;
    loop {
        line += 1;
        let (their_line, our_line) = (their_lines.next(), our_lines.next());
        if their_line != our_line || their_line.is_none() {
            let (their_line, our_line) = (their_line.unwrap_or(""), our_line.unwrap_or(""));
            let word = same_words(their_line, our_line);
            let shown = |text| {
                format!(
                    "line {line}, from word {word}: {}",
                    short(&from_word(text, word))
                )
            };
            return (shown(their_line), shown(our_line));
        }
    }
}

/// With how many words two lines begin alike.
fn same_words(one: &str, other: &str) -> usize {
    let pairs = one.split(' ').zip(other.split(' '));
    pairs.take_while(|(a, b)| a == b).count()
}

/// A line without so many words at its beginning.
fn from_word(line: &str, word: usize) -> String {
    line.split(' ').skip(word).collect::<Vec<_>>().join(" ")
}

/// A text that fits into a report.
fn short(text: &str) -> String {
    let beginning: String = text.chars().take(200).collect();
    let more = if beginning.len() < text.len() {
        " …"
    } else {
        ""
    };
    format!("{beginning:?}{more}")
}
