//! "The file": the trailer points back, records run from start to the trailer.

use crate::{refuse, List, Refusal, Row};

fn two(bytes: &[u8]) -> u16 {
    u16::from_le_bytes([bytes[0], bytes[1]])
}

/// What the records of a file hold, before the list itself is checked: numbers 1 to 8.
pub fn records(file: &[u8]) -> Result<List, Refusal> {
    if file.len() < 8 || file.len() > 32_768 {
        return refuse(1, 0);
    }
    let (before, trailer) = file.split_at(file.len() - 8);
    if trailer[6..] != [0x4C, 0x54] {
        return refuse(2, 0);
    }
    let start = u32::from_le_bytes([trailer[0], trailer[1], trailer[2], trailer[3]]) as usize;
    if start > before.len() {
        return refuse(3, 0);
    }
    let mut nodes = None;
    let mut rows = Vec::new();
    let mut rest = &before[start..];
    while let Some(&length) = rest.first() {
        let offset = before.len() - rest.len();
        if length <= 1 {
            return refuse(4, offset);
        }
        if usize::from(length) > rest.len() {
            return refuse(5, offset);
        }
        let (record, after) = rest.split_at(usize::from(length));
        match (record[1], record.len()) {
            (1, 4) => {
                if nodes.is_some() {
                    return refuse(7, offset);
                }
                nodes = Some(two(&record[2..]));
            }
            (2, 8) => {
                if nodes.is_none() {
                    return refuse(7, offset);
                }
                rows.push(Row { a: two(&record[2..]), b: two(&record[4..]), w: two(&record[6..]) });
            }
            (128..=255, _) => {}
            _ => return refuse(6, offset),
        }
        rest = after;
    }
    let Some(n) = nodes else {
        return refuse(7, before.len());
    };
    if usize::from(two(&trailer[4..])) != rows.len() {
        return refuse(8, 0);
    }
    Ok(List { n: u32::from(n), rows })
}

/// The writer's bytes of an accepted list.
pub fn bytes(list: &List) -> Vec<u8> {
    let mut out = vec![4, 1];
    out.extend((list.n as u16).to_le_bytes());
    for row in &list.rows {
        out.extend([8, 2]);
        for value in [row.a, row.b, row.w] {
            out.extend(value.to_le_bytes());
        }
    }
    out.extend([0, 0, 0, 0]);
    out.extend((list.rows.len() as u16).to_le_bytes());
    out.extend([0x4C, 0x54]);
    out
}
