//! Writes the judge's answers down as claims about the definitions of `crates/meaning`, for the checker to prove by evaluation.
//!
//! `definitions FOLDER LISTS FILES CRATES [wrong]` makes the crates `cases0`, `cases1`, .. in FOLDER. Each claim is one list of cases, what
//! the definitions give beside what the judge says. With `wrong` one number of one case is false, and the checker has to refuse it.

use std::fmt::Write as _;
use std::fs;
use std::path::Path;

use judge::calls::{self, Answer, Given};
use judge::random::{self, Loose, Random};

/// How much one claim may cost to evaluate, in the unit of `list_cost`: the checker allows so many steps to one declaration.
const CLAIM_COST: u64 = 40_000;

/// The rounds on n nodes look at every row for every two nodes, in every step of every round.
fn list_cost(n: u32, rows: usize) -> u64 {
    1_000 + u64::from(n.min(16)).pow(4) * (rows as u64 + 1)
}

const HEADER: &str = "use Rattle.std.specs.Prelude.{ℕ, zero, suc, ◌≡◌, refl, List, [], ◌∷◌, ◌++◌, map, length}
use Rattle.meaning.specs.Sums.{sum, has, listed, those}
use Rattle.meaning.specs.Numbers.{Check, fine, bad, Answer, done, refused, answered, after}
use Rattle.meaning.specs.Links.{Given, given, LinkList, list_of, rows_check, list_check, pairs}
use Rattle.meaning.specs.Order.{back, choose, prefix, backs_of}
use Rattle.meaning.specs.Forest.{position, first, firsts_of, visits, scan, kepts_of, stays}
use Rattle.meaning.specs.Split.{cut, rounds, word}
use Rattle.meaning.specs.File.{item_at, run_from, run_of, file_check, list_in, rows_bytes, file_of}
use Rattle.meaning.specs.Report.{digits, spaced, list_report, report_of}
use Rattle.meaning.specs.Calls.{order0, order_check, forest_check, kept_check, short_check, short_given, least_answer, fewer_answer, summary_answer, read_answer, write_answer, write_leaves, report_answer, report_check}

";

const FIGURES: &str = "
-- a list after its length
abbrev part : List ℕ → List ℕ
part xs = length xs ∷ xs

-- an answer as number, place and fields
abbrev shown : Answer → List ℕ
shown (done fields) = part (0 ∷ 0 ∷ fields)
shown (refused num at) = part (num ∷ at ∷ [])

-- each call on a list, with what the lent lists held
abbrev ordering : Given → List ℕ → List ℕ → List ℕ
ordering g o b =
    let c = order_check g (length o) (length b) in
    let v = order0 g in
    shown (answered c []) ++ (part (after c v o) ++ part (after c (backs_of (list_of g) v) b))

abbrev thinning : Given → ℕ → List ℕ → List ℕ
thinning g k old =
    let v = order0 g in
    let c = forest_check g (length old) in
    let d = kept_check g k (length old) in
    shown (answered c []) ++ (part (after c (firsts_of (list_of g) v) old) ++ (shown (answered d []) ++ part (after d (kepts_of (list_of g) v k) old)))

abbrev scanning : Given → List ℕ → List ℕ
scanning g old =
    let c = forest_check g (length old) in
    part (after c (listed (length g.la) (scan (list_of g) (order0 g) g.n).given_first) old)

abbrev shortening : Given → ℕ → List ℕ → List ℕ → List ℕ → List ℕ
shortening g k la lb lw =
    let c = short_check g k (length la) (length lb) (length lw) in
    let s = short_given g k in
    shown (answered c (length s.la ∷ [])) ++ (part (after c s.la la) ++ (part (after c s.lb lb) ++ part (after c s.lw lw)))

abbrev splitting : Given → ℕ → List ℕ
splitting g k = shown (least_answer g) ++ shown (fewer_answer g k)

abbrev writing : Given → List ℕ → List ℕ
writing g old = shown (summary_answer g) ++ (shown (write_answer g (length old)) ++ part (write_leaves g old))

-- each call on a file
abbrev reading : List ℕ → List ℕ → List ℕ → List ℕ → List ℕ
reading s la lb lw =
    let c = file_check s (length la) (length lb) (length lw) in
    let g = list_in s in
    shown (read_answer s (length la) (length lb) (length lw)) ++ (part (after c g.la la) ++ (part (after c g.lb lb) ++ part (after c g.lw lw)))

abbrev reporting : List ℕ → List ℕ → List ℕ
reporting s old = shown (report_answer s (length old)) ++ part (after (report_check s (length old)) (report_of s) old)

-- a case: what the definitions give, and what the judge says
record Case : Type 0 where
  pub gives : List ℕ
  pub says : List ℕ

infix 10 ◌is◌
abbrev ◌is◌ : List ℕ → List ℕ → Case
x is y = record { gives = x; says = y }
";

const UNFOLDING: &str = "sum has listed those rows_check list_check pairs back choose prefix position first visits scan stays cut rounds word item_at run_from run_of file_check rows_bytes file_of digits spaced list_report report_of";

fn row<T: Copy + Into<u64>>(values: &[T]) -> String {
    let mut text = String::from("(");
    for &value in values {
        write!(text, "{} ∷ ", value.into()).unwrap();
    }
    text + "[])"
}

/// What the judge says of one case, built as the figures above build it.
#[derive(Default)]
struct Says(Vec<u64>);

impl Says {
    fn part<T: Copy + Into<u64>>(&mut self, values: &[T]) {
        self.0.push(values.len() as u64);
        self.0.extend(values.iter().map(|&value| value.into()));
    }

    fn shown(&mut self, answer: &Answer) {
        let mut all = vec![answer.number, answer.place];
        all.extend(&answer.fields);
        self.part(&all);
    }
}

struct Case {
    gives: String,
    says: Vec<u64>,
}

fn case(gives: String, fill: impl FnOnce(&mut Says)) -> Case {
    let mut says = Says::default();
    fill(&mut says);
    Case { gives, says: says.0 }
}

/// A lent list: as long as needed, one longer or one shorter, with contents of its own.
fn lent<T: From<u8>>(random: &mut Random, needed: usize) -> Vec<T> {
    let room = match random.below(8) {
        0 => needed.saturating_sub(1),
        1..=3 => needed,
        _ => needed + 1,
    };
    (0..room).map(|_| T::from(random.between(200, 250) as u8)).collect()
}

fn list_cases(random: &mut Random, cases: &mut Vec<Case>) -> u64 {
    let loose = if random.once_in(20) { random::loose(random, 7, 10) } else { random::loose(random, 5, 8) };
    let g = format!("(given {} {} {} {})", loose.n, row(&loose.a), row(&loose.b), row(&loose.w));
    let given = Loose::given(&loose);
    let rows = loose.a.len();
    // Evaluation is eager: the order of 129 nodes would be worked out before it is refused.
    if loose.n <= 16 {
        order_and_split_cases(random, &g, given, cases);
    }

    let mut out: Vec<u8> = lent(random, 12 + 8 * rows);
    cases.push(case(format!("writing {g} {}", row(&out)), |says| {
        says.shown(&calls::summary(given));
        says.shown(&calls::write(given, &mut out));
        says.part(&out);
    }));
    list_cost(loose.n, rows)
}

fn order_and_split_cases(random: &mut Random, g: &str, given: Given, cases: &mut Vec<Case>) {
    let (nodes, rows) = (given.n as usize, given.a.len());
    let k = random.pick(&[0, 1, 1, 2, 2, 3, 4, 5, u32::MAX]);

    let (mut o, mut b): (Vec<u16>, Vec<u32>) = (lent(random, nodes), lent(random, nodes));
    cases.push(case(format!("ordering {g} {} {}", row(&o), row(&b)), |says| {
        says.shown(&calls::order(given, &mut o, &mut b));
        says.part(&o);
        says.part(&b);
    }));

    let mut first: Vec<u32> = lent(random, rows);
    let mut kept: Vec<u16> = first.iter().map(|&value| value as u16).collect();
    cases.push(case(format!("thinning {g} {k} {}", row(&first)), |says| {
        says.shown(&calls::forest(given, &mut first));
        says.part(&first);
        says.shown(&calls::kept(given, k, &mut kept));
        says.part(&kept);
    }));

    // The scan as a definition is slow to evaluate.
    if nodes * rows <= 24 && random.once_in(4) {
        let mut first: Vec<u32> = lent(random, rows);
        cases.push(case(format!("scanning {g} {}", row(&first)), |says| {
            calls::forest(given, &mut first);
            says.part(&first);
        }));
    }

    let mut to: [Vec<u16>; 3] = [lent(random, rows), lent(random, rows), lent(random, rows)];
    cases.push(case(format!("shortening {g} {k} {} {} {}", row(&to[0]), row(&to[1]), row(&to[2])), |says| {
        let [a, b, w] = &mut to;
        says.shown(&calls::short(given, k, a, b, w));
        to.iter().for_each(|list| says.part(list));
    }));

    let least = calls::least(given);
    let value = least.fields.first().map_or(k, |&value| value as u32);
    let asked = random.pick(&[k, value, value.saturating_add(1)]);
    cases.push(case(format!("splitting {g} {asked}"), |says| {
        says.shown(&least);
        says.shown(&calls::fewer(given, asked));
    }));
}

fn file_cases(random: &mut Random, cases: &mut Vec<Case>) -> u64 {
    let file = random::file(random, 5, 6);
    let rows = judge::file::records(&file).map_or(1, |list| list.rows.len());
    let mut to: [Vec<u16>; 3] = [lent(random, rows), lent(random, rows), lent(random, rows)];
    cases.push(case(format!("reading {} {} {} {}", row(&file), row(&to[0]), row(&to[1]), row(&to[2])), |says| {
        let [a, b, w] = &mut to;
        says.shown(&calls::read(&file, a, b, w));
        to.iter().for_each(|list| says.part(list));
    }));
    if calls::reads(&file, [2_048; 3]).map_or(true, |list| list.n <= 16) {
        let mut out: Vec<u8> = lent(random, judge::report::text(&file).len());
        cases.push(case(format!("reporting {} {}", row(&file), row(&out)), |says| {
            says.shown(&calls::report(&file, &mut out));
            says.part(&out);
        }));
    }
    judge::file::records(&file).map_or(1_000, |list| list_cost(list.n, list.rows.len()))
}

fn claim(text: &mut String, name: &str, cases: &[Case]) {
    write!(text, "\nabbrev {name} : List Case\n{name} =\n").unwrap();
    for (number, case) in cases.iter().enumerate() {
        let before = if number == 0 { "" } else { "∷ " };
        writeln!(text, "    {before}({} is {})", case.gives, row(&case.says)).unwrap();
    }
    writeln!(text, "    ∷ []\n\npub {name}_hold : map (λ c. c.gives) {name} ≡ map (λ c. c.says) {name}").unwrap();
    writeln!(text, "unfolding {UNFOLDING}\n{name}_hold = refl").unwrap();
}

fn main() {
    let words: Vec<String> = std::env::args().skip(1).collect();
    let number = |at: usize| words[at].parse::<usize>().expect("a number");
    let (folder, lists, files, crates) = (Path::new(&words[0]), number(1), number(2), number(3));
    let wrong = words.get(4).is_some();
    let mut random = Random::new(2_026);
    let (mut figures, mut count) = (0, 0);
    for part in 0..crates {
        let share = |all: usize| all / crates + usize::from(part < all % crates);
        let mut claims = Vec::new();
        for (all, make) in [
            (share(lists), list_cases as fn(&mut Random, &mut Vec<Case>) -> u64),
            (share(files), file_cases),
        ] {
            let (mut cases, mut cost) = (Vec::new(), 0);
            for _ in 0..all {
                cost += make(&mut random, &mut cases);
                if cost > CLAIM_COST {
                    claims.push(std::mem::take(&mut cases));
                    cost = 0;
                }
            }
            if !cases.is_empty() {
                claims.push(cases);
            }
        }
        figures += claims.iter().flatten().map(|case| case.says.len()).sum::<usize>();
        count += claims.len();
        if wrong && part == 0 {
            let says = &mut claims[0].last_mut().expect("a case").says;
            *says.last_mut().expect("a number") += 1;
        }
        let mut text = String::from(HEADER) + FIGURES;
        for (at, cases) in claims.iter().enumerate() {
            claim(&mut text, &format!("cases{at}"), cases);
        }
        let home = folder.join(format!("cases{part}"));
        fs::create_dir_all(home.join("src")).unwrap();
        fs::create_dir_all(home.join("specs")).unwrap();
        fs::write(home.join("src/lib.rt"), "// Claims about the definitions, made by rust/judge.\n#![tactic(auto)]\n").unwrap();
        fs::write(home.join("specs/Lib.antt"), "pub mod Cases\n").unwrap();
        fs::write(home.join("specs/Cases.antt"), text).unwrap();
    }
    println!("{lists} lists and {files} files in {count} claims: {figures} numbers compared");
}
