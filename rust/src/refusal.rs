//! The refusals of the library, by the rows of its table.

use std::error::Error;
use std::fmt;

/// Why a call was turned down. All lent memory is then as before the call.
#[derive(Clone, Copy, Debug, PartialEq, Eq, PartialOrd, Ord, Hash)]
#[non_exhaustive]
#[repr(u8)]
pub enum Refusal {
    /// Archive slice: fewer than 8 words, or fewer than 8 + 5 × capacity. Rearrange: also a second
    /// slice of fewer than 8 + 5 × the archive's capacity. Figures: an archive's slice is what is left
    /// of the slice from where the archive begins.
    SliceShort = 1,
    /// Header: capacity or a reference word out of range; count above capacity; total above the
    /// box; word 6 above the count; word 7 not zero.
    BadHeader = 2,
    /// Records: number or coordinate out of range, contribution above the box, order broken, a
    /// number twice, an unused word not zero.
    BadRecords = 3,
    /// Start, card line 1: reference or capacity out of range. Count4: reference out of range.
    BadStart = 4,
    /// Insert: trial number out of range.
    BadNumber = 5,
    /// Insert, gain, replace-effect: a coordinate above 1,048,576. Count4: a coordinate above 32,768.
    BadCoordinate = 6,
    /// Insert: number already held.
    NumberHeld = 7,
    /// Insert: count equals capacity.
    Full = 8,
    /// Remove, joint, replace-effect: number not held (either one).
    NotHeld = 9,
    /// Joint: the same number twice.
    SameNumber = 10,
    /// Reduce: k above the count.
    AboveCount = 11,
    /// Reduce: log shorter than 2 × (count − k) words.
    LogShort = 12,
    /// Insert, remove: a new total or contribution would fall below 0 or exceed the box. Reduce,
    /// rearrange: the audit's answer is no.
    Miscount = 13,
    /// Least: no trial held.
    NoneHeld = 14,
    /// Card: a line not of the form; an empty card is line 1.
    CardForm = 15,
    /// Report: output shorter than 53 × (count + 1) bytes. Card-write: output shorter than
    /// 33 × (count + 1) bytes. Count4: output shorter than points + 1 words.
    OutputShort = 16,
    /// Insert-grid: slice length not a multiple of four. Only the bare C interface can be given one.
    /// Volume: slice length not a multiple of three. Count4: not a multiple of four.
    BadLength = 17,
    /// Least, reduce: a tie rule that is neither 0 nor 1. Only the bare C interface can be given one.
    BadRule = 18,
    /// Volume: a double that is not a whole number, in the reference from 1 to 1,048,576, in a point
    /// from 0 to 1,048,576; minus zero is zero.
    BadDouble = 19,
    /// Volume, count4: more than 512 points.
    TooManyPoints = 20,
    /// Rearrange: an order of the axes above 5. Only the bare C interface can be given one.
    BadOrder = 22,
    /// Figures: no archive, more than 15, or references that differ.
    BadRuns = 23,
}

impl Refusal {
    /// Every refusal, in the order of the table.
    pub const ALL: [Refusal; 22] = [
        Refusal::SliceShort,
        Refusal::BadHeader,
        Refusal::BadRecords,
        Refusal::BadStart,
        Refusal::BadNumber,
        Refusal::BadCoordinate,
        Refusal::NumberHeld,
        Refusal::Full,
        Refusal::NotHeld,
        Refusal::SameNumber,
        Refusal::AboveCount,
        Refusal::LogShort,
        Refusal::Miscount,
        Refusal::NoneHeld,
        Refusal::CardForm,
        Refusal::OutputShort,
        Refusal::BadLength,
        Refusal::BadRule,
        Refusal::BadDouble,
        Refusal::TooManyPoints,
        Refusal::BadOrder,
        Refusal::BadRuns,
    ];

    /// The number of its row.
    pub fn number(self) -> u64 {
        self as u64
    }

    /// The refusal of that row, if there is one.
    pub fn from_number(number: u64) -> Option<Refusal> {
        Refusal::ALL.into_iter().find(|r| r.number() == number)
    }

    /// A call's refusal number as a result; 0 is done.
    pub(crate) fn check(number: u64) -> Result<(), Refusal> {
        match number {
            0 => Ok(()),
            n => Err(Refusal::from_number(n).expect("the library answers a row of the table")),
        }
    }
}

impl fmt::Display for Refusal {
    fn fmt(&self, f: &mut fmt::Formatter<'_>) -> fmt::Result {
        f.write_str(match self {
            Refusal::SliceShort => "archive slice too short",
            Refusal::BadHeader => "archive header not valid",
            Refusal::BadRecords => "archive records not valid",
            Refusal::BadStart => "reference or capacity out of range",
            Refusal::BadNumber => "trial number out of range",
            Refusal::BadCoordinate => "a coordinate above 1,048,576, or above 32,768 on four axes",
            Refusal::NumberHeld => "trial number already held",
            Refusal::Full => "archive full",
            Refusal::NotHeld => "trial number not held",
            Refusal::SameNumber => "the same trial number twice",
            Refusal::AboveCount => "k above the count of trials",
            Refusal::LogShort => "log too short",
            Refusal::Miscount => "kept total, front or contributions do not fit the trials",
            Refusal::NoneHeld => "no trial held",
            Refusal::CardForm => "card line not of the form",
            Refusal::OutputShort => "output too short",
            Refusal::BadLength => "length not that of whole trials or points",
            Refusal::BadRule => "tie rule neither 0 nor 1",
            Refusal::BadDouble => "a double not whole or out of range",
            Refusal::TooManyPoints => "more than 512 points",
            Refusal::BadOrder => "order of the axes above 5",
            Refusal::BadRuns => "no archive, more than 15, or references that differ",
        })
    }
}

impl Error for Refusal {}

/// Why a card was turned down, and at which of its lines (from 1).
#[derive(Clone, Copy, Debug, PartialEq, Eq, Hash)]
pub struct CardRefusal {
    pub refusal: Refusal,
    pub line: u64,
}

impl CardRefusal {
    pub(crate) fn check(number: u64, line: u64) -> Result<(), CardRefusal> {
        Refusal::check(number).map_err(|refusal| CardRefusal { refusal, line })
    }
}

impl fmt::Display for CardRefusal {
    fn fmt(&self, f: &mut fmt::Formatter<'_>) -> fmt::Result {
        write!(f, "card line {}: {}", self.line, self.refusal)
    }
}

impl Error for CardRefusal {
    fn source(&self) -> Option<&(dyn Error + 'static)> {
        Some(&self.refusal)
    }
}
