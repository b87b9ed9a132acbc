//! Link lists, forest numbers and the least cable cut: safe calls into the library that is proved to answer as document 01 says.
//!
//! Each call takes a list of links as [`Links`], which borrows, or a file's bytes. It answers `Ok`, or a [`Refusal`] with the number and
//! place of document 01's table. Nothing is checked here: every check is the library's. Where a call lends lists, the function of
//! its name allocates them, and the one that ends in `_into` takes the caller's.
//!
//! ```
//! let list = paltiehko::List { n: 3, a: vec![0, 1, 0], b: vec![1, 2, 2], w: vec![1, 1, 1] };
//! let least = paltiehko::least(list.links())?;
//! assert_eq!(least.value, 2);
//! assert_eq!(least.members().collect::<Vec<_>>(), [2]);
//! assert_eq!(paltiehko::fewer(list.links(), 2)?, None);
//! # Ok::<(), paltiehko::Refusal>(())
//! ```

pub mod raw;
mod refusal;

pub use raw::Links;
pub use refusal::Refusal;

/// Room for any list that is accepted: its rows, its nodes, the text of its report.
const ROWS: usize = 2_048;
const NODES: usize = 128;
const TEXT: usize = 1_024;

/// A list of links with its own storage.
#[derive(Clone, Debug, Default, PartialEq, Eq)]
pub struct List {
    pub n: u32,
    pub a: Vec<u16>,
    pub b: Vec<u16>,
    pub w: Vec<u16>,
}

impl List {
    /// The list as the calls take it.
    pub fn links(&self) -> Links<'_> {
        Links { n: self.n, a: &self.a, b: &self.b, w: &self.w }
    }
}

/// What a list adds up to.
#[derive(Clone, Copy, Debug, PartialEq, Eq)]
pub struct Summary {
    pub n: u64,
    pub rows: u64,
    /// The sum of the weights.
    pub links: u64,
    /// The number of different (a, b) as written.
    pub pairs: u64,
}

/// The max-back order and the back counts by position.
#[derive(Clone, Debug, PartialEq, Eq)]
pub struct Order {
    pub nodes: Vec<u16>,
    pub back: Vec<u32>,
}

/// A division: the cables across and the side without node 0.
#[derive(Clone, Copy, Debug, PartialEq, Eq)]
pub struct Split {
    pub value: u64,
    /// Node i is in the side where bit i mod 64 of word i div 64 is set.
    pub words: [u64; 2],
    /// The number of nodes in the side.
    pub size: u64,
}

impl Split {
    /// The nodes of the side, from the lowest.
    pub fn members(self) -> impl Iterator<Item = u16> {
        (0..128u16).filter(move |node| self.words[usize::from(node / 64)] >> (node % 64) & 1 == 1)
    }
}

/// The fields of an answer, or its refusal.
fn fields(answer: raw::Answer) -> Result<[u64; 6], Refusal> {
    let [number, place, fields @ ..] = answer;
    if number == 0 { Ok(fields) } else { Err(Refusal { number, place }) }
}

fn split(answer: raw::Answer) -> Result<Split, Refusal> {
    let [value, low, high, size, ..] = fields(answer)?;
    Ok(Split { value, words: [low, high], size })
}

/// Reads a file into lent lists; gives n and the number of rows.
pub fn read_into(file: &[u8], a: &mut [u16], b: &mut [u16], w: &mut [u16]) -> Result<(u32, usize), Refusal> {
    let [n, rows, ..] = fields(raw::read(file, a, b, w))?;
    Ok((n as u32, rows as usize))
}

/// Reads a file.
pub fn read(file: &[u8]) -> Result<List, Refusal> {
    let (mut a, mut b, mut w) = (vec![0; ROWS], vec![0; ROWS], vec![0; ROWS]);
    let (n, rows) = read_into(file, &mut a, &mut b, &mut w)?;
    for list in [&mut a, &mut b, &mut w] {
        list.truncate(rows);
    }
    Ok(List { n, a, b, w })
}

/// Writes a list's file into lent bytes; gives its size.
pub fn write_into(links: Links, out: &mut [u8]) -> Result<usize, Refusal> {
    let [size, ..] = fields(raw::write(links, out))?;
    Ok(size as usize)
}

/// A list's file.
pub fn write(links: Links) -> Result<Vec<u8>, Refusal> {
    let mut out = vec![0; 12 + 8 * links.a.len()];
    let size = write_into(links, &mut out)?;
    out.truncate(size);
    Ok(out)
}

/// The max-back order from node 0 and its back counts, in lent lists of n places each.
pub fn order_into(links: Links, order: &mut [u16], back: &mut [u32]) -> Result<(), Refusal> {
    fields(raw::order(links, order, back)).map(drop)
}

/// The max-back order from node 0 and its back counts.
pub fn order(links: Links) -> Result<Order, Refusal> {
    let (mut nodes, mut back) = (vec![0; NODES], vec![0; NODES]);
    order_into(links, &mut nodes, &mut back)?;
    nodes.truncate(links.n as usize);
    back.truncate(links.n as usize);
    Ok(Order { nodes, back })
}

/// The forest number of each row's first cable, in a lent list of one place per row.
pub fn forest_into(links: Links, first: &mut [u32]) -> Result<(), Refusal> {
    fields(raw::forest(links, first)).map(drop)
}

/// The forest number of each row's first cable.
pub fn forest(links: Links) -> Result<Vec<u32>, Refusal> {
    let mut first = vec![0; links.a.len()];
    forest_into(links, &mut first)?;
    Ok(first)
}

/// The weight that each row keeps for k, in a lent list of one place per row.
pub fn kept_into(links: Links, k: u32, kept: &mut [u16]) -> Result<(), Refusal> {
    fields(raw::kept(links, k, kept)).map(drop)
}

/// The weight that each row keeps for k.
pub fn kept(links: Links, k: u32) -> Result<Vec<u16>, Refusal> {
    let mut kept = vec![0; links.a.len()];
    kept_into(links, k, &mut kept)?;
    Ok(kept)
}

/// The short list for k, in lent lists of one place per given row; gives the number of rows written.
pub fn short_into(links: Links, k: u32, a: &mut [u16], b: &mut [u16], w: &mut [u16]) -> Result<usize, Refusal> {
    let [rows, ..] = fields(raw::short(links, k, a, b, w))?;
    Ok(rows as usize)
}

/// The short list for k.
pub fn short(links: Links, k: u32) -> Result<List, Refusal> {
    let room = links.a.len();
    let (mut a, mut b, mut w) = (vec![0; room], vec![0; room], vec![0; room]);
    let rows = short_into(links, k, &mut a, &mut b, &mut w)?;
    for list in [&mut a, &mut b, &mut w] {
        list.truncate(rows);
    }
    Ok(List { n: links.n, a, b, w })
}

/// The least split: no division has fewer cables across.
pub fn least(links: Links) -> Result<Split, Refusal> {
    split(raw::least(links))
}

/// The least split where it has fewer than k cables across; `None` where every division has k or more, which is document 01's number 17.
pub fn fewer(links: Links, k: u32) -> Result<Option<Split>, Refusal> {
    match split(raw::fewer(links, k)) {
        Err(Refusal { number: 17, .. }) => Ok(None),
        answer => answer.map(Some),
    }
}

/// What a list adds up to.
pub fn summary(links: Links) -> Result<Summary, Refusal> {
    let [n, rows, links, pairs, ..] = fields(raw::summary(links))?;
    Ok(Summary { n, rows, links, pairs })
}

/// Writes a file's report into lent bytes; gives the length of the text.
pub fn report_into(file: &[u8], out: &mut [u8]) -> Result<usize, Refusal> {
    let [length, ..] = fields(raw::report(file, out))?;
    Ok(length as usize)
}

/// A file's report, as the printing program prints it; the line of a refused file too.
pub fn report(file: &[u8]) -> String {
    let mut out = vec![0; TEXT];
    let length = report_into(file, &mut out).expect("1,024 bytes are always enough");
    out.truncate(length);
    String::from_utf8(out).expect("the text is words and decimal numbers")
}
