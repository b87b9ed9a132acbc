//! Each call as a program sees it. The answer is the number, the place and the fields; on a refusal no lent list changes.

use crate::{file, order, refuse, report, split, List, Refusal, Row};

/// What a call answers.
#[derive(Clone, Debug, PartialEq, Eq)]
pub struct Answer {
    pub number: u64,
    pub place: u64,
    pub fields: Vec<u64>,
}

fn answer(result: Result<Vec<u64>, Refusal>) -> Answer {
    match result {
        Ok(fields) => Answer { number: 0, place: 0, fields },
        Err(Refusal { number, place }) => Answer { number, place, fields: vec![] },
    }
}

/// A list as a call is given it: n and three lists, perhaps of unequal length.
#[derive(Clone, Copy, Debug)]
pub struct Given<'a> {
    pub n: u32,
    pub a: &'a [u16],
    pub b: &'a [u16],
    pub w: &'a [u16],
}

/// The checks of a list, in the table's order: 9, 10, then 14 where a lent output is shorter than needed, the rows, 18. `room` gives
/// for the number of rows the pairs (needed, lent).
fn check(given: Given, room: impl Fn(usize) -> Vec<(usize, usize)>) -> Result<List, Refusal> {
    let rows = given.a.len();
    if given.n == 0 || given.n > 128 {
        return refuse(9, 0);
    }
    if rows > 2_048 || given.b.len() != rows || given.w.len() != rows {
        return refuse(10, 0);
    }
    if room(rows).iter().any(|(needed, lent)| lent < needed) {
        return refuse(14, 0);
    }
    let rows = (0..rows).map(|r| Row { a: given.a[r], b: given.b[r], w: given.w[r] }).collect();
    let list = List { n: given.n, rows };
    for (place, row) in list.rows.iter().enumerate() {
        if u32::from(row.a) >= list.n || u32::from(row.b) >= list.n {
            return refuse(11, place);
        }
        if row.a == row.b {
            return refuse(12, place);
        }
        if row.w == 0 {
            return refuse(13, place);
        }
    }
    if list.links() > 4_294_967_295 {
        return refuse(18, 0);
    }
    Ok(list)
}

fn no_zero(k: u32) -> Result<u64, Refusal> {
    if k == 0 { refuse(15, 0) } else { Ok(u64::from(k)) }
}

fn some_division(list: &List) -> Result<(), Refusal> {
    if list.n == 1 { refuse(16, 0) } else { Ok(()) }
}

/// Lays new contents at the front of a lent list.
fn lay<T: Copy + TryFrom<u64>>(lent: &mut [T], new: impl IntoIterator<Item = u64>) {
    for (place, value) in lent.iter_mut().zip(new) {
        *place = T::try_from(value).ok().expect("the value fits its place");
    }
}

fn lay_list(list: &List, a: &mut [u16], b: &mut [u16], w: &mut [u16]) {
    lay(a, list.rows.iter().map(|r| u64::from(r.a)));
    lay(b, list.rows.iter().map(|r| u64::from(r.b)));
    lay(w, list.rows.iter().map(|r| u64::from(r.w)));
}

/// The list that a file holds, for lent lists of these lengths.
pub fn reads(file: &[u8], room: [usize; 3]) -> Result<List, Refusal> {
    let list = file::records(file)?;
    let (a, b, w) = list.columns();
    check(Given { n: list.n, a: &a, b: &b, w: &w }, |rows| room.map(|lent| (rows, lent)).to_vec())
}

pub fn read(file: &[u8], a: &mut [u16], b: &mut [u16], w: &mut [u16]) -> Answer {
    answer(reads(file, [a.len(), b.len(), w.len()]).map(|list| {
        lay_list(&list, a, b, w);
        vec![u64::from(list.n), list.rows.len() as u64]
    }))
}

pub fn write(given: Given, out: &mut [u8]) -> Answer {
    answer(check(given, |rows| vec![(12 + 8 * rows, out.len())]).map(|list| {
        let bytes = file::bytes(&list);
        lay(out, bytes.iter().map(|&byte| u64::from(byte)));
        vec![bytes.len() as u64]
    }))
}

pub fn order(given: Given, order: &mut [u16], back: &mut [u32]) -> Answer {
    let n = given.n as usize;
    answer(check(given, |_| vec![(n, order.len()), (n, back.len())]).map(|list| {
        let (nodes, backs) = order::order(&list);
        lay(order, nodes.into_iter().map(u64::from));
        lay(back, backs);
        vec![]
    }))
}

pub fn forest(given: Given, first: &mut [u32]) -> Answer {
    answer(check(given, |rows| vec![(rows, first.len())]).map(|list| {
        lay(first, order::firsts(&list));
        vec![]
    }))
}

pub fn kept(given: Given, k: u32, kept: &mut [u16]) -> Answer {
    answer((|| {
        let list = check(given, |rows| vec![(rows, kept.len())])?;
        lay(kept, order::kept(&list, no_zero(k)?));
        Ok(vec![])
    })())
}

pub fn short(given: Given, k: u32, a: &mut [u16], b: &mut [u16], w: &mut [u16]) -> Answer {
    answer((|| {
        let list = check(given, |rows| [a.len(), b.len(), w.len()].map(|lent| (rows, lent)).to_vec())?;
        let short = order::short(&list, no_zero(k)?);
        lay_list(&short, a, b, w);
        Ok(vec![short.rows.len() as u64])
    })())
}

fn split_fields(split: split::Split) -> Vec<u64> {
    let [low, high] = split.words();
    vec![split.value, low, high, split.side.len() as u64]
}

pub fn least(given: Given) -> Answer {
    answer((|| {
        let list = check(given, |_| vec![])?;
        some_division(&list)?;
        Ok(split_fields(split::least(&list)))
    })())
}

pub fn fewer(given: Given, k: u32) -> Answer {
    answer((|| {
        let list = check(given, |_| vec![])?;
        let k = no_zero(k)?;
        some_division(&list)?;
        let split = split::least(&list);
        if split.value < k { Ok(split_fields(split)) } else { refuse(17, 0) }
    })())
}

pub fn summary(given: Given) -> Answer {
    answer(check(given, |_| vec![]).map(|list| {
        vec![u64::from(list.n), list.rows.len() as u64, list.links(), list.pairs()]
    }))
}

pub fn report(file: &[u8], out: &mut [u8]) -> Answer {
    let text = report::text(file);
    if out.len() < text.len() {
        return answer(refuse(14, 0));
    }
    lay(out, text.bytes().map(u64::from));
    answer(Ok(vec![text.len() as u64]))
}
