//! "The least split".

use std::collections::BTreeSet;

use crate::List;

/// A division: its value and its side.
#[derive(Clone, Debug, PartialEq, Eq)]
pub struct Split {
    pub value: u64,
    pub side: BTreeSet<u16>,
}

impl Split {
    /// The side as two 64-bit words: node i is bit i mod 64 of word i div 64.
    pub fn words(&self) -> [u64; 2] {
        let mut words = [0; 2];
        for &node in &self.side {
            words[usize::from(node / 64)] |= 1 << (node % 64);
        }
        words
    }
}

/// The sum of the weights of rows with one end inside.
pub fn value(list: &List, inside: impl Fn(u16) -> bool) -> u64 {
    list.rows.iter().filter(|r| inside(r.a) != inside(r.b)).map(|r| u64::from(r.w)).sum()
}

/// Document 000's method on groups that are sets of nodes; a group's number is its smallest node.
pub fn least(list: &List) -> Split {
    let mut groups: Vec<BTreeSet<u16>> = (0..list.n as u16).map(|v| BTreeSet::from([v])).collect();
    let mut noted: Option<Split> = None;
    while groups.len() > 1 {
        let mut ordered = order_of_groups(list, groups);
        let last = ordered.pop().expect("two groups or more");
        let now = value(list, |v| last.contains(&v));
        if noted.as_ref().map_or(true, |before| now < before.value) {
            noted = Some(Split { value: now, side: last.clone() });
        }
        let mut merged = ordered.pop().expect("two groups or more");
        merged.extend(last);
        ordered.push(merged);
        groups = ordered;
    }
    noted.expect("two nodes or more")
}

/// The groups in max-back order: the group of node 0 first, ties to the smallest number.
fn order_of_groups(list: &List, mut groups: Vec<BTreeSet<u16>>) -> Vec<BTreeSet<u16>> {
    groups.sort_by_key(|group| *group.first().expect("no group is empty"));
    let mut group_of = vec![0; list.n as usize];
    for (number, group) in groups.iter().enumerate() {
        for &node in group {
            group_of[usize::from(node)] = number;
        }
    }
    let mut placed = vec![false; groups.len()];
    let mut order = vec![0];
    placed[0] = true;
    while order.len() < groups.len() {
        let mut back = vec![0u64; groups.len()];
        for row in &list.rows {
            let (p, q) = (group_of[usize::from(row.a)], group_of[usize::from(row.b)]);
            for (x, y) in [(p, q), (q, p)] {
                if placed[x] && !placed[y] {
                    back[y] += u64::from(row.w);
                }
            }
        }
        let free: Vec<usize> = (0..groups.len()).filter(|&g| !placed[g]).collect();
        let most = free.iter().map(|&g| back[g]).max().expect("a group is left");
        let next = free.into_iter().find(|&g| back[g] == most).expect("one has the most");
        placed[next] = true;
        order.push(next);
    }
    order.into_iter().map(|g| std::mem::take(&mut groups[g])).collect()
}

/// The smallest value of any division, by trying every one: every set of nodes without node 0, since the other side of a division
/// has the same value. For n from 2 to some 20.
pub fn brute(list: &List) -> u64 {
    divisions(list).min().expect("two nodes or more")
}

/// The value of every division.
pub fn divisions(list: &List) -> impl Iterator<Item = u64> + '_ {
    (1u32..1 << (list.n - 1)).map(move |set| value(list, |v| v > 0 && set >> (v - 1) & 1 == 1))
}
