//! One call, made of the library and of the judge on the same input, with lent lists that hold the same contents before. All eight places
//! of the answer and every place of every lent list must be equal afterwards, and the lists that a call reads unchanged.

use std::fmt::Debug;

use judge::calls;
use judge::random::{Loose, Random};
use paltiehko::raw::{self, Answer, Links};

/// The judge's answer in eight places.
pub fn laid(answer: &calls::Answer) -> Answer {
    let mut places = [0; 8];
    places[0] = answer.number;
    places[1] = answer.place;
    places[2..2 + answer.fields.len()].copy_from_slice(&answer.fields);
    places
}

fn same<T: PartialEq + Debug>(call: &str, what: &str, library: T, judge: T, input: impl Debug) {
    assert!(library == judge, "{call}: {what} differs\nlibrary {library:?}\njudge   {judge:?}\ninput   {input:?}");
}

/// A lent list with contents of its own: as long as needed, a little longer, or one too short.
fn lent<T: From<u8>>(random: &mut Random, needed: usize) -> Vec<T> {
    let room = match random.below(16) {
        0 => needed.saturating_sub(1),
        1..=8 => needed,
        _ => needed + random.between(1, 3) as usize,
    };
    (0..room).map(|_| T::from(random.between(1, 255) as u8)).collect()
}

/// A list, with the library's and the judge's view of it.
pub struct Case {
    list: Loose,
    before: (Vec<u16>, Vec<u16>, Vec<u16>),
}

impl Case {
    pub fn new(list: Loose) -> Case {
        let before = (list.a.clone(), list.b.clone(), list.w.clone());
        Case { list, before }
    }

    fn links(&self) -> Links<'_> {
        Links { n: self.list.n, a: &self.list.a, b: &self.list.b, w: &self.list.w }
    }

    fn shown(&self) -> String {
        let Loose { n, a, b, w } = &self.list;
        format!("n={n} a={a:?} b={b:?} w={w:?}")
    }

    /// The places that n nodes need, where that is a number to lend.
    fn nodes(&self) -> usize {
        self.list.n.min(200) as usize
    }

    fn rows(&self) -> usize {
        self.list.a.len()
    }

    /// That no list which the calls only read has changed.
    pub fn unchanged(&self) {
        let now = (&self.list.a, &self.list.b, &self.list.w);
        same("any call", "a list that is only read", now, (&self.before.0, &self.before.1, &self.before.2), "");
    }

    pub fn write(&self, random: &mut Random) {
        let mut out: Vec<u8> = lent(random, 12 + 8 * self.rows());
        let mut out2 = out.clone();
        let answers = (raw::write(self.links(), &mut out), laid(&calls::write(self.list.given(), &mut out2)));
        same("write", "the answer", answers.0, answers.1, self.shown());
        same("write", "the bytes", out, out2, self.shown());
    }

    pub fn order(&self, random: &mut Random) {
        let (mut order, mut back): (Vec<u16>, Vec<u32>) = (lent(random, self.nodes()), lent(random, self.nodes()));
        let (mut order2, mut back2) = (order.clone(), back.clone());
        let answers = (
            raw::order(self.links(), &mut order, &mut back),
            laid(&calls::order(self.list.given(), &mut order2, &mut back2)),
        );
        same("order", "the answer", answers.0, answers.1, self.shown());
        same("order", "the order", order, order2, self.shown());
        same("order", "the back counts", back, back2, self.shown());
    }

    pub fn forest(&self, random: &mut Random) {
        let mut first: Vec<u32> = lent(random, self.rows());
        let mut first2 = first.clone();
        let answers = (raw::forest(self.links(), &mut first), laid(&calls::forest(self.list.given(), &mut first2)));
        same("forest", "the answer", answers.0, answers.1, self.shown());
        same("forest", "the first numbers", first, first2, self.shown());
    }

    pub fn kept(&self, random: &mut Random, k: u32) {
        let mut kept: Vec<u16> = lent(random, self.rows());
        let mut kept2 = kept.clone();
        let answers = (raw::kept(self.links(), k, &mut kept), laid(&calls::kept(self.list.given(), k, &mut kept2)));
        same("kept", "the answer", answers.0, answers.1, (k, self.shown()));
        same("kept", "the kept weights", kept, kept2, (k, self.shown()));
    }

    pub fn short(&self, random: &mut Random, k: u32) {
        let mut lists: [Vec<u16>; 3] = [(); 3].map(|()| lent(random, self.rows()));
        let mut lists2 = lists.clone();
        let [a, b, w] = &mut lists;
        let [a2, b2, w2] = &mut lists2;
        let answers = (raw::short(self.links(), k, a, b, w), laid(&calls::short(self.list.given(), k, a2, b2, w2)));
        same("short", "the answer", answers.0, answers.1, (k, self.shown()));
        same("short", "a short list", lists, lists2, (k, self.shown()));
    }

    /// Gives the judge's answer.
    pub fn least(&self) -> Answer {
        let answers = (raw::least(self.links()), laid(&calls::least(self.list.given())));
        same("least", "the answer", answers.0, answers.1, self.shown());
        answers.1
    }

    pub fn fewer(&self, k: u32) {
        let answers = (raw::fewer(self.links(), k), laid(&calls::fewer(self.list.given(), k)));
        same("fewer", "the answer", answers.0, answers.1, (k, self.shown()));
    }

    /// The library's answer to "fewer than k?" alone, for a judge who has the least split already.
    pub fn fewer_is(&self, k: u32, judge: Answer) {
        same("fewer", "the answer", raw::fewer(self.links(), k), judge, (k, self.shown()));
    }

    pub fn summary(&self) {
        let answers = (raw::summary(self.links()), laid(&calls::summary(self.list.given())));
        same("summary", "the answer", answers.0, answers.1, self.shown());
    }

    /// Every call but the split.
    pub fn lists(&self, random: &mut Random, k: u32) {
        self.summary();
        self.write(random);
        self.order(random);
        self.forest(random);
        self.kept(random, k);
        self.short(random, k);
        self.unchanged();
    }
}

pub fn read(random: &mut Random, file: &[u8]) {
    let rows = judge::file::records(file).map_or(2, |list| list.rows.len());
    let mut lists: [Vec<u16>; 3] = [(); 3].map(|()| lent(random, rows));
    let mut lists2 = lists.clone();
    let [a, b, w] = &mut lists;
    let [a2, b2, w2] = &mut lists2;
    let answers = (raw::read(file, a, b, w), laid(&calls::read(file, a2, b2, w2)));
    same("read", "the answer", answers.0, answers.1, file);
    same("read", "a list that is filled", lists, lists2, file);
}

pub fn report(random: &mut Random, file: &[u8]) {
    let mut out: Vec<u8> = lent(random, judge::report::text(file).len());
    let mut out2 = out.clone();
    let answers = (raw::report(file, &mut out), laid(&calls::report(file, &mut out2)));
    same("report", "the answer", answers.0, answers.1, file);
    same("report", "the text", out, out2, file);
}
