//! Faults, their numbers, and where in a document they are.

use std::fmt;

/// Why a document is refused.
#[derive(Clone, Copy, Debug, PartialEq, Eq)]
pub enum Fault {
    KindOrLength,
    NumberOutOfRange,
    NotRising,
    NoCost,
    NotConnected,
}

impl Fault {
    /// The number under which users know the fault.
    pub fn number(self) -> u8 {
        match self {
            Fault::KindOrLength => 1,
            Fault::NumberOutOfRange => 2,
            Fault::NotRising => 3,
            Fault::NoCost => 4,
            Fault::NotConnected => 5,
        }
    }

    /// The fault in words.
    pub fn text(self) -> &'static str {
        match self {
            Fault::KindOrLength => "unknown kind or bad length",
            Fault::NumberOutOfRange => "a number out of range",
            Fault::NotRising => "roads not in rising order",
            Fault::NoCost => "a cost of 0",
            Fault::NotConnected => "not connected",
        }
    }
}

/// The kinds of records of a map document.
#[derive(Clone, Copy, Debug, PartialEq, Eq)]
pub enum Record {
    Header,
    Road,
    End,
}

impl Record {
    fn name(self) -> &'static str {
        match self {
            Record::Header => "header",
            Record::Road => "road",
            Record::End => "end",
        }
    }
}

/// A fault and where it is: the record, its index among its kind, and the byte at which it begins.
#[derive(Clone, Copy, Debug, PartialEq, Eq)]
pub struct Refusal {
    pub fault: Fault,
    pub record: Record,
    pub index: usize,
    pub byte: usize,
}

/// Shows the part of a refusal that every implementation has to say alike; the fault's words are
/// each one's own.
impl fmt::Display for Refusal {
    fn fmt(&self, out: &mut fmt::Formatter<'_>) -> fmt::Result {
        let number = self.fault.number();
        let record = self.record.name();
        write!(
            out,
            "fault {number}: {record} {} at byte {}",
            self.index, self.byte
        )
    }
}
