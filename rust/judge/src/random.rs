//! Lists and files from a fixed seed, good and damaged.

use crate::{file, List, Row};

/// A small generator (splitmix64): the same numbers on every machine.
pub struct Random(u64);

impl Random {
    pub fn new(seed: u64) -> Random {
        Random(seed)
    }

    pub fn word(&mut self) -> u64 {
        self.0 = self.0.wrapping_add(0x9E37_79B9_7F4A_7C15);
        let mut z = self.0;
        z = (z ^ (z >> 30)).wrapping_mul(0xBF58_476D_1CE4_E5B9);
        z = (z ^ (z >> 27)).wrapping_mul(0x94D0_49BB_1331_11EB);
        z ^ (z >> 31)
    }

    /// A number below `end`.
    pub fn below(&mut self, end: u64) -> u64 {
        self.word() % end
    }

    /// A number from `low` to `high`, both included.
    pub fn between(&mut self, low: u64, high: u64) -> u64 {
        low + self.below(high - low + 1)
    }

    /// True once in `times`.
    pub fn once_in(&mut self, times: u64) -> bool {
        self.below(times) == 0
    }

    pub fn pick<T: Copy>(&mut self, from: &[T]) -> T {
        from[self.below(from.len() as u64) as usize]
    }
}

/// An accepted list on n nodes with so many rows and weights from 1 to `heaviest`.
pub fn list_of(random: &mut Random, n: u32, rows: u64, heaviest: u64) -> List {
    let mut list = List { n, rows: vec![] };
    if n < 2 {
        return list;
    }
    for _ in 0..rows {
        let a = random.below(u64::from(n)) as u16;
        let b = (u64::from(a) + random.between(1, u64::from(n) - 1)) % u64::from(n);
        list.rows.push(Row { a, b: b as u16, w: random.between(1, heaviest) as u16 });
    }
    list
}

/// An accepted list with at most `n` nodes and `rows` rows: thin and dense ones, light and heavy ones, some in two loose halves.
pub fn list(random: &mut Random, n: u32, rows: u64) -> List {
    let nodes = random.between(1, u64::from(n)) as u32;
    let most = rows.min(random.pick(&[u64::from(nodes), 2 * u64::from(nodes), rows]));
    let count = random.between(0, most);
    let heaviest = random.pick(&[1, 2, 3, 9, 65_535]);
    let mut list = list_of(random, nodes, count, heaviest);
    if nodes >= 4 && random.once_in(4) {
        let half = nodes as u16 / 2;
        list.rows.retain(|r| (r.a < half) == (r.b < half));
        for _ in 0..random.below(3) {
            if (list.rows.len() as u64) < rows {
                let (a, b) = (random.below(u64::from(half)), random.between(u64::from(half), u64::from(nodes) - 1));
                list.rows.push(Row { a: a as u16, b: b as u16, w: random.between(1, heaviest) as u16 });
            }
        }
    }
    list
}

/// An accepted list of 2 to `n` nodes in the shape of a site: some halls, each a ring, a path, a star, complete or at random, joined one to the next
/// by a few cables; sometimes with the nodes' numbers mixed. The least split is a node, a hall, or halls.
pub fn site(random: &mut Random, n: u32) -> List {
    let nodes = random.between(2, u64::from(n)) as u16;
    let halls = random.between(1, u64::from(nodes).min(6)) as u16;
    let heaviest = random.pick(&[1, 1, 2, 9, 65_535]);
    let mut ends: Vec<(u16, u16)> = vec![];
    for hall in 0..halls {
        let (first, end) = (hall * nodes / halls, (hall + 1) * nodes / halls);
        if hall > 0 {
            for _ in 0..random.between(1, 4) {
                ends.push((random.below(u64::from(first)) as u16, random.between(u64::from(first), u64::from(end) - 1) as u16));
            }
        }
        match random.below(5) {
            0 | 1 => {
                ends.extend((first + 1..end).map(|v| (v - 1, v)));
                if end - first > 2 && random.once_in(2) {
                    ends.push((end - 1, first));
                }
            }
            2 => ends.extend((first + 1..end).map(|v| (v, first))),
            3 if end - first <= 24 => ends.extend((first..end).flat_map(|u| (first..u).map(move |v| (u, v)))),
            _ if end - first > 1 => {
                for _ in 0..random.below(10 * u64::from(end - first)) {
                    let u = random.below(u64::from(end - first));
                    let v = (u + random.between(1, u64::from(end - first) - 1)) % u64::from(end - first);
                    ends.push((first + u as u16, first + v as u16));
                }
            }
            _ => {}
        }
    }
    let mut number: Vec<u16> = (0..nodes).collect();
    if random.once_in(2) {
        for v in (1..nodes as usize).rev() {
            number.swap(v, random.below(v as u64 + 1) as usize);
        }
    }
    let rows = ends
        .into_iter()
        .map(|(u, v)| Row { a: number[u as usize], b: number[v as usize], w: random.between(1, heaviest) as u16 })
        .collect();
    List { n: u32::from(nodes), rows }
}

/// A list as a call may be given it: mostly accepted, else with something wrong.
pub struct Loose {
    pub n: u32,
    pub a: Vec<u16>,
    pub b: Vec<u16>,
    pub w: Vec<u16>,
}

impl Loose {
    pub fn of(list: &List) -> Loose {
        let (a, b, w) = list.columns();
        Loose { n: list.n, a, b, w }
    }

    pub fn given(&self) -> crate::calls::Given<'_> {
        crate::calls::Given { n: self.n, a: &self.a, b: &self.b, w: &self.w }
    }

    /// Puts one fault in.
    pub fn damage(&mut self, random: &mut Random) {
        let rows = self.a.len().min(self.b.len()).min(self.w.len());
        let row = if rows == 0 { 0 } else { random.below(rows as u64) as usize };
        match random.below(8) {
            0 => self.n = random.pick(&[0, 1, 2, 129, 257, 65_537, 65_793, u32::MAX]),
            1 => drop(random.pick(&[true, false]).then(|| self.b.pop())),
            2 => self.w.push(1),
            3 => self.a.push(0),
            _ if rows == 0 => {}
            4 => self.a[row] = random.pick(&[self.n as u16, self.n.wrapping_add(1) as u16, u16::MAX]),
            5 => self.b[row] = random.pick(&[self.n as u16, 256, 32_768]),
            6 => self.b[row] = self.a[row],
            _ => self.w[row] = 0,
        }
    }
}

/// An accepted or damaged list with at most `n` nodes and `rows` rows.
pub fn loose(random: &mut Random, n: u32, rows: u64) -> Loose {
    let mut loose = Loose::of(&list(random, n, rows));
    if random.once_in(4) {
        for _ in 0..random.between(1, 3) {
            loose.damage(random);
        }
    }
    loose
}

/// A file with at most `rows` rows: as the writer makes it, or with bytes before start and skipped records; then perhaps damaged.
pub fn file(random: &mut Random, n: u32, rows: u64) -> Vec<u8> {
    let list = list(random, n, rows);
    if random.once_in(12) {
        return (0..random.below(24)).map(|_| random.word() as u8).collect();
    }
    let mut bytes = if random.once_in(3) { file::bytes(&list) } else { padded(random, &list) };
    if random.once_in(2) {
        for _ in 0..random.between(1, 2) {
            damage(random, &mut bytes);
        }
    }
    bytes
}

/// The list's file with bytes before start, skipped records, and sometimes its records out of place.
fn padded(random: &mut Random, list: &List) -> Vec<u8> {
    let start = random.below(5) as usize;
    let mut bytes: Vec<u8> = (0..start).map(|_| random.word() as u8).collect();
    let plain = file::bytes(list);
    let mut records: Vec<Vec<u8>> = vec![plain[..4].to_vec()];
    records.extend(plain[4..plain.len() - 8].chunks(8).map(|row| row.to_vec()));
    for _ in 0..random.below(3) {
        let mut skipped = vec![0, random.between(128, 255) as u8];
        skipped.extend((0..random.below(6)).map(|_| random.word() as u8));
        skipped[0] = skipped.len() as u8;
        records.insert(random.between(0, records.len() as u64) as usize, skipped);
    }
    if random.once_in(8) {
        let (p, q) = (random.below(records.len() as u64) as usize, random.below(records.len() as u64) as usize);
        records.swap(p, q);
    }
    if random.once_in(8) {
        let twice = random.pick(&(0..records.len()).collect::<Vec<_>>());
        records.push(records[twice].clone());
    }
    bytes.extend(records.concat());
    bytes.extend((start as u32).to_le_bytes());
    bytes.extend((list.rows.len() as u16).to_le_bytes());
    bytes.extend([0x4C, 0x54]);
    bytes
}

/// One fault: a byte set, one put in or taken out, the end cut off, the start moved.
fn damage(random: &mut Random, bytes: &mut Vec<u8>) {
    if bytes.is_empty() {
        return bytes.push(0);
    }
    let at = random.below(bytes.len() as u64) as usize;
    match random.below(8) {
        0..=3 => bytes[at] = random.pick(&[0, 1, 2, 3, 4, 7, 8, 9, 127, 128, 255, random.0 as u8]),
        4 => bytes.insert(at, random.pick(&[0, 1, 2, 8, 128])),
        5 => drop(bytes.remove(at)),
        6 => bytes.truncate(at),
        _ if bytes.len() < 8 => {}
        _ => {
            let trailer = bytes.len() - 8;
            let start = random.pick(&[trailer, trailer + 1, trailer.saturating_sub(1), 65_536, 4, 12]) as u32;
            bytes[trailer..trailer + 4].copy_from_slice(&start.to_le_bytes());
        }
    }
}
