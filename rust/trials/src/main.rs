//! Every call of the library against the judge. `trials` runs the counts of the default run, `trials long` twenty times as many random
//! inputs, `trials short` a few of each kind, as for memcheck. The seed is fixed; the counts are printed. The first difference ends
//! the run, with its input.

mod compare;

use std::time::Instant;

use compare::{laid, Case};
use judge::calls;
use judge::random::{self, Loose, Random};
use judge::{file, split, List, Row};

/// How many random inputs a part makes, by the run.
#[derive(Clone, Copy)]
struct Scale {
    times: u64,
    over: u64,
}

impl Scale {
    fn of(self, count: u64) -> u64 {
        (count * self.times / self.over).max(2)
    }

    /// What a part that has no random inputs goes through.
    fn which(self) -> &'static str {
        if self.over > 1 { "some of" } else { "all" }
    }

    /// One in so many of a part's inputs, in a short run.
    fn step(self, step: usize) -> usize {
        if self.over > 1 { step } else { 1 }
    }
}

const LARGEST: u32 = u32::MAX;

fn some_k(random: &mut Random) -> u32 {
    let heavy = random.below(70_000) as u32;
    random.pick(&[0, 1, 1, 2, 2, 3, 4, 6, 10, heavy, LARGEST - 1, LARGEST])
}

/// Small files, good and damaged: read and reported.
fn files(random: &mut Random, scale: Scale) -> String {
    let (small, large) = (scale.of(100_000), scale.of(400));
    for _ in 0..small {
        let file = random::file(random, 10, 12);
        compare::read(random, &file);
        compare::report(random, &file);
    }
    for _ in 0..large {
        let file = random::file(random, 128, 2_100);
        compare::read(random, &file);
        if random.once_in(8) {
            compare::report(random, &file);
        }
    }
    format!("{small} small and {large} large random files, good and damaged")
}

/// Every byte of two small files set to every value, every part of them cut off at either end, every start.
fn damaged_files(random: &mut Random, scale: Scale) -> String {
    let q = file::bytes(&List::of(2, &[(0, 1, 3)]));
    let r = file::bytes(&List::of(3, &[(0, 1, 1), (1, 2, 1), (0, 2, 1)]));
    let mut count = 0;
    let mut both = |file: &[u8]| {
        compare::read(random, file);
        compare::report(random, file);
        count += 1;
    };
    let step = scale.step(51);
    for whole in [q, r] {
        for at in 0..whole.len() {
            for value in (0..=255).step_by(step) {
                let mut file = whole.clone();
                file[at] = value;
                both(&file);
            }
            both(&whole[..at]);
            both(&whole[at..]);
        }
        let trailer = whole.len() - 8;
        for start in (0..=trailer as u32 + 1).chain([65_536, 65_540, 1 << 31, LARGEST]) {
            let mut file = whole.clone();
            file[trailer..trailer + 4].copy_from_slice(&start.to_le_bytes());
            both(&file);
        }
    }
    format!("{count} files with one byte, the start or an end damaged")
}

/// Files at the limits of size, rows and nodes.
fn limit_files(random: &mut Random, _: Scale) -> String {
    let mut count = 0;
    let mut both = |file: &[u8]| {
        compare::read(random, file);
        compare::report(random, file);
        count += 1;
    };
    for size in [0, 1, 7, 8, 9, 32_767, 32_768, 32_769, 40_000] {
        let mut file = vec![128u8; size];
        both(&file);
        if size >= 8 {
            file[size - 8..].copy_from_slice(&[0, 0, 0, 0, 0, 0, 0x4C, 0x54]);
            both(&file);
        }
    }
    for (n, rows) in [(128, 2_047), (128, 2_048), (128, 2_049), (129, 1), (0, 1), (65_535, 0), (2, 4_094), (1, 0)] {
        let list = List { n, rows: (0..rows).map(|r| Row { a: r % 2, b: (r + 1) % 2, w: 65_535 }).collect() };
        both(&file::bytes(&list));
    }
    format!("{count} files at the limits")
}

/// Random lists, small and large, mostly good: order, forest, kept, short, summary, write.
fn lists(random: &mut Random, scale: Scale) -> String {
    let (small, large) = (scale.of(20_000), scale.of(300));
    for _ in 0..small {
        let k = some_k(random);
        Case::new(random::loose(random, 12, 30)).lists(random, k);
    }
    for _ in 0..large {
        let k = some_k(random);
        Case::new(random::loose(random, 128, 2_048)).lists(random, k);
    }
    format!("{small} small and {large} large random lists, good and damaged")
}

/// All lists of up to two rows on up to three nodes, bad rows and zero weights too, and all good ones of three rows on three nodes.
fn small_lists(random: &mut Random, scale: Scale) -> String {
    let mut count = 0;
    let mut all = |rows: &[(u16, u16, u16)], n: u32| {
        let case = Case::new(Loose::of(&List::of(n, rows)));
        for k in [1, 2] {
            case.lists(random, k);
            case.fewer(k);
        }
        case.least();
        count += 1;
    };
    for n in 0..=3u16 {
        let ends = || (0..=n).flat_map(move |a| (0..=n).map(move |b| (a, b)));
        let every: Vec<_> = ends().flat_map(|(a, b)| (0..=2).map(move |w| (a, b, w))).collect();
        all(&[], u32::from(n));
        for x in &every {
            all(&[*x], u32::from(n));
            for y in every.iter().step_by(scale.step(7)) {
                all(&[*x, *y], u32::from(n));
            }
        }
    }
    let good: Vec<_> = every_good_row(3).collect();
    for x in &good {
        for y in &good {
            for z in good.iter().step_by(scale.step(7)) {
                all(&[*x, *y, *z], 3);
            }
        }
    }
    let which = scale.which();
    format!("{count} lists: {which} those of up to 2 rows on up to 3 nodes, {which} the good ones of 3 rows")
}

fn every_good_row(n: u16) -> impl Iterator<Item = (u16, u16, u16)> {
    let ends = (0..n).flat_map(move |a| (0..n).filter(move |&b| b != a).map(move |b| (a, b)));
    ends.flat_map(|(a, b)| [1, 2].map(|w| (a, b, w)))
}

/// Every list of one row for each two of up to five nodes, the row left out or of weight 1 or 2, and of six nodes with weight 1.
fn simple_lists(random: &mut Random, scale: Scale) -> String {
    let mut count = 0;
    for (n, weights) in [(2u16, 3u64), (3, 3), (4, 3), (5, 3), (6, 2)] {
        let pairs: Vec<(u16, u16)> = (0..n).flat_map(|a| (a + 1..n).map(move |b| (a, b))).collect();
        let step = scale.step(997);
        for code in (0..weights.pow(pairs.len() as u32)).step_by(step) {
            let weight = |at: usize| (code / weights.pow(at as u32) % weights) as u16;
            let rows = pairs.iter().enumerate().map(|(at, &(a, b))| Row { a, b, w: weight(at) });
            let list = List { n: u32::from(n), rows: rows.filter(|row| row.w > 0).collect() };
            let case = Case::new(Loose::of(&list));
            let answer = case.least();
            assert_eq!(answer[2], split::brute(&list), "some division is smaller: {list:?}");
            case.lists(random, turning_k(code));
            count += 1;
        }
    }
    let which = scale.which();
    format!("{count} lists: {which} those with at most one row for each two of up to 6 nodes, against every division")
}

/// A small k that goes round.
fn turning_k(code: u64) -> u32 {
    1 + (code % 4) as u32
}

/// Numbers of nodes and rows at and past the limits, unequal lengths, every k at its ends.
fn limit_lists(random: &mut Random, scale: Scale) -> String {
    let mut count = 0;
    let some_rows: &[usize] = if scale.over > 1 { &[0, 2_049] } else { &[0, 1, 2, 127, 2_047, 2_048, 2_049] };
    for n in [0, 1, 2, 3, 64, 65, 127, 128, 129, 256, 257, 65_537, 65_793, LARGEST] {
        for &rows in some_rows {
            for spoilt in 0..5 {
                let nodes = n.clamp(2, 128);
                let mut list = Loose::of(&random::list_of(random, nodes, rows as u64, 65_535));
                list.n = n;
                match spoilt {
                    0 | 1 => {}
                    2 => list.a.push(0),
                    3 => drop(list.b.pop()),
                    _ => list.w.push(1),
                }
                let case = Case::new(list);
                let k = random.pick(&[0, 1, 2, LARGEST - 1, LARGEST]);
                case.lists(random, k);
                if spoilt != 0 {
                    case.least();
                    case.fewer(k);
                }
                count += 1;
            }
        }
    }
    format!("{count} lists at and past the limits")
}

/// The least split against every division, and "fewer than k?" for every k from 0 to the value and one more.
fn splits(random: &mut Random, scale: Scale) -> String {
    let lists = scale.of(20_000);
    let (mut divisions, mut questions) = (0u64, 0u64);
    for _ in 0..lists {
        let list = if random.once_in(2) { random::site(random, 10) } else { random::list(random, 10, 26) };
        let case = Case::new(Loose::of(&list));
        let answer = case.least();
        if answer[0] != 0 {
            continue;
        }
        let value = answer[2];
        assert_eq!(value, split::brute(&list), "some division is smaller: {list:?}");
        divisions += (1 << (list.n - 1)) - 1;
        let none = laid(&calls::Answer { number: 17, place: 0, fields: vec![] });
        for k in (1..=value.min(40)).chain([value.max(1), value + 1, u64::from(LARGEST)]) {
            case.fewer_is(k as u32, if value < k { answer } else { none });
            questions += 1;
        }
        case.fewer(0);
        case.unchanged();
    }
    format!("{lists} lists against all of their {divisions} divisions, with {questions} questions for k")
}

/// The least split of lists up to the limits against the judge's own.
fn large_splits(random: &mut Random, scale: Scale) -> String {
    let lists = scale.of(500);
    for _ in 0..lists {
        let (nodes, rows) = random.pick(&[(32, 200), (64, 700), (128, 300), (128, 2_048)]);
        let case = Case::new(random::loose(random, nodes, rows));
        let answer = case.least();
        let k = random.pick(&[0, 1, answer[2], answer[2] + 1, u64::from(LARGEST)]);
        case.fewer(k as u32);
        case.unchanged();
    }
    format!("{lists} lists of up to 128 nodes and 2,048 rows")
}

/// The least split of sites: halls joined by a few cables, so that it is found in the first round, in a later one, and in the last.
fn sites(random: &mut Random, scale: Scale) -> String {
    let lists = scale.of(1_000);
    let mut alone = 0;
    for _ in 0..lists {
        let nodes = random.pick(&[12, 24, 64, 128]);
        let case = Case::new(Loose::of(&random::site(random, nodes)));
        let answer = case.least();
        alone += u64::from(answer[5] == 1);
        case.fewer(random.pick(&[1, answer[2], answer[2] + 1]) as u32);
        case.unchanged();
    }
    format!("{lists} sites of up to 128 nodes, the side one node in {alone} of them")
}

/// The same from four threads at once.
fn threads(_: &mut Random, scale: Scale) -> String {
    let each = scale.of(1_000);
    let work = |seed: u64| {
        let random = &mut Random::new(seed);
        for _ in 0..each {
            let case = Case::new(random::loose(random, 16, 40));
            let k = some_k(random);
            case.lists(random, k);
            case.least();
            case.fewer(k);
            let file = random::file(random, 10, 12);
            compare::read(random, &file);
            compare::report(random, &file);
        }
    };
    std::thread::scope(|scope| {
        (0..4).for_each(|seed| drop(scope.spawn(move || work(100 + seed))));
    });
    format!("4 threads with {each} lists and files each")
}

type Part = fn(&mut Random, Scale) -> String;

fn main() {
    let scale = match std::env::args().nth(1).as_deref() {
        None => Scale { times: 1, over: 1 },
        Some("long") => Scale { times: 20, over: 1 },
        Some("short") => Scale { times: 1, over: 500 },
        Some(word) => {
            eprintln!("trials: '{word}' is none of: long, short");
            std::process::exit(2);
        }
    };
    let parts: [(&str, Part); 11] = [
        ("files", files),
        ("damaged files", damaged_files),
        ("limit files", limit_files),
        ("lists", lists),
        ("small lists", small_lists),
        ("simple lists", simple_lists),
        ("limit lists", limit_lists),
        ("splits", splits),
        ("large splits", large_splits),
        ("sites", sites),
        ("threads", threads),
    ];
    for (seed, (name, part)) in parts.into_iter().enumerate() {
        let begin = Instant::now();
        let done = part(&mut Random::new(seed as u64), scale);
        println!("{name}: {done}, all equal ({:.1} s)", begin.elapsed().as_secs_f64());
    }
}
