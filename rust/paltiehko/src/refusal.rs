//! What a call says when it refuses.

use std::fmt;

/// A number of document 01's table other than 0, with its place: a byte offset, a row, or 0.
#[derive(Clone, Copy, Debug, PartialEq, Eq)]
pub struct Refusal {
    pub number: u64,
    pub place: u64,
}

impl Refusal {
    /// What the number says, in words.
    pub fn reason(&self) -> &'static str {
        match self.number {
            1 => "the file has under 8 or over 32,768 bytes",
            2 => "the file's mark differs",
            3 => "the start is past the trailer",
            4 => "the record's length byte is 0 or 1",
            5 => "the record passes the trailer",
            6 => "the record's kind is unknown, or its length is not its kind's",
            7 => "the kind 1 record is missing, comes again, or comes after a row",
            8 => "the trailer's row count differs from the rows",
            9 => "the number of nodes is 0 or over 128",
            10 => "there are over 2,048 rows, or the lists are of unequal length",
            11 => "an end of the row is not a node",
            12 => "both ends of the row are equal",
            13 => "the row's weight is 0",
            14 => "a lent list is too short",
            15 => "k is 0",
            16 => "a single node has no split",
            17 => "no division has fewer than k across",
            18 => "the weights add to over 4,294,967,295",
            _ => "the number is not in the table",
        }
    }
}

impl fmt::Display for Refusal {
    fn fmt(&self, f: &mut fmt::Formatter) -> fmt::Result {
        write!(f, "refused {} at {}: {}", self.number, self.place, self.reason())
    }
}

impl std::error::Error for Refusal {}
