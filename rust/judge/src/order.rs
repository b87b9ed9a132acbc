//! "Order, forests, thinning".

use crate::{List, Row};

/// The max-back order from node 0, ties to the smallest number, and the back counts by position.
pub fn order(list: &List) -> (Vec<u16>, Vec<u64>) {
    let mut placed = vec![false; list.n as usize];
    let (mut nodes, mut backs) = (vec![0], vec![0]);
    placed[0] = true;
    while nodes.len() < list.n as usize {
        let (mut best, mut most) = (None, 0);
        for v in (0..list.n as u16).filter(|&v| !placed[usize::from(v)]) {
            let back = cables_to(list, v, &placed);
            if best.is_none() || back > most {
                (best, most) = (Some(v), back);
            }
        }
        let next = best.expect("a node is left");
        placed[usize::from(next)] = true;
        nodes.push(next);
        backs.push(most);
    }
    (nodes, backs)
}

/// The cables from v to the nodes placed.
fn cables_to(list: &List, v: u16, placed: &[bool]) -> u64 {
    let other = |row: &Row| if row.a == v { Some(row.b) } else if row.b == v { Some(row.a) } else { None };
    let joins = |row: &&Row| other(row).is_some_and(|u| placed[usize::from(u)]);
    list.rows.iter().filter(joins).map(|row| u64::from(row.w)).sum()
}

/// Document 003's scan along an order: `see(row, number)` is told each row and the number of its first cable.
fn scan(list: &List, order: &[u16], mut see: impl FnMut(usize, u64)) {
    let position = |v: u16| order.iter().position(|&u| u == v).expect("every node is placed");
    let mut reached = vec![0u64; list.n as usize];
    for (p, &x) in order.iter().enumerate() {
        for (number, row) in list.rows.iter().enumerate() {
            let y = if row.a == x { row.b } else if row.b == x { row.a } else { continue };
            if position(y) > p {
                see(number, reached[usize::from(y)] + 1);
                reached[usize::from(y)] += u64::from(row.w);
            }
        }
    }
}

/// The first forest number of each row.
pub fn firsts(list: &List) -> Vec<u64> {
    let mut numbers = vec![0; list.rows.len()];
    scan(list, &order(list).0, |row, first| numbers[row] = first);
    numbers
}

/// The kept weight of each row for k: of its cables, numbered from its first number on, those numbered at most k.
pub fn kept(list: &List, k: u64) -> Vec<u64> {
    firsts(list)
        .iter()
        .zip(&list.rows)
        .map(|(&first, row)| {
            let last = first + u64::from(row.w) - 1;
            if first > k { 0 } else { last.min(k) - first + 1 }
        })
        .collect()
}

/// The same, cable by cable: for lists of few cables.
pub fn kept_by_cable(list: &List, k: u64) -> Vec<u64> {
    let mut kept = vec![0; list.rows.len()];
    scan(list, &order(list).0, |row, first| {
        for cable in 0..u64::from(list.rows[row].w) {
            if first + cable <= k {
                kept[row] += 1;
            }
        }
    });
    kept
}

/// The short list for k: the rows that keep something, in order, with their kept weights.
pub fn short(list: &List, k: u64) -> List {
    let rows = list
        .rows
        .iter()
        .zip(kept(list, k))
        .filter(|(_, kept)| *kept > 0)
        .map(|(row, kept)| Row { w: kept as u16, ..*row })
        .collect();
    List { n: list.n, rows }
}
