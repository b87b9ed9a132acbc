//! The judge: document 01 read a second time, slowly and literally, by someone who has not seen the proved code.
//!
//! Every call of the library stands here once more, with the same answer and the same lent lists, and with no thought of speed:
//! sets are sets, an order looks at every row at every step, and `brute` tries every division. Nothing here is proved. Where the
//! judge and the library differ, document 01 decides which is wrong.
//!
//! - [`calls`]: each call as a program sees it: checks in the table's order, the answer, what the lent lists hold afterwards.
//! - [`file`]: "The file", reading and writing.
//! - [`order`]: "Order, forests, thinning".
//! - [`split`]: "The least split", by the rounds on sets of nodes, and by trying every division.
//! - [`report`]: the printing program's text.
//! - [`random`]: lists and files with a fixed seed, good and damaged.

pub mod calls;
pub mod file;
pub mod order;
pub mod random;
pub mod report;
pub mod split;

/// A row: its two ends and its weight, the number of parallel cables.
#[derive(Clone, Copy, Debug, PartialEq, Eq)]
pub struct Row {
    pub a: u16,
    pub b: u16,
    pub w: u16,
}

/// A list of links: n nodes, numbered from 0, and its rows.
#[derive(Clone, Debug, PartialEq, Eq)]
pub struct List {
    pub n: u32,
    pub rows: Vec<Row>,
}

impl List {
    /// A list from rows written as (a, b, w).
    pub fn of(n: u32, rows: &[(u16, u16, u16)]) -> List {
        List { n, rows: rows.iter().map(|&(a, b, w)| Row { a, b, w }).collect() }
    }

    /// The three columns, as the calls take them.
    pub fn columns(&self) -> (Vec<u16>, Vec<u16>, Vec<u16>) {
        (
            self.rows.iter().map(|r| r.a).collect(),
            self.rows.iter().map(|r| r.b).collect(),
            self.rows.iter().map(|r| r.w).collect(),
        )
    }

    /// The sum of the weights.
    pub fn links(&self) -> u64 {
        self.rows.iter().map(|r| u64::from(r.w)).sum()
    }

    /// The number of different (a, b) as written.
    pub fn pairs(&self) -> u64 {
        self.rows.iter().map(|r| (r.a, r.b)).collect::<std::collections::BTreeSet<_>>().len() as u64
    }
}

/// A number of the table other than 0, with its place.
#[derive(Clone, Copy, Debug, PartialEq, Eq)]
pub struct Refusal {
    pub number: u64,
    pub place: u64,
}

pub(crate) fn refuse<T>(number: u64, place: usize) -> Result<T, Refusal> {
    Err(Refusal { number, place: place as u64 })
}
