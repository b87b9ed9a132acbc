//! Every example of document 01, marked and unmarked, and every shortcut that it warns of.

use judge::calls::{self, Answer, Given};
use judge::random::Loose;
use judge::{file, order, report, split, List};

fn p() -> List {
    List::of(2, &[])
}

fn q() -> List {
    List::of(2, &[(0, 1, 3)])
}

fn r() -> List {
    List::of(3, &[(0, 1, 1), (1, 2, 1), (0, 2, 1)])
}

fn s() -> List {
    List::of(4, &[(0, 2, 5), (2, 1, 1), (0, 3, 2), (1, 3, 1)])
}

fn t() -> List {
    List::of(6, &[(0, 1, 1), (1, 2, 1), (0, 2, 1), (3, 4, 1), (4, 5, 1), (3, 5, 1), (2, 3, 1)])
}

const Q_FILE: [u8; 20] = [
    0x04, 0x01, 0x02, 0x00, 0x08, 0x02, 0x00, 0x00, 0x01, 0x00, 0x03, 0x00, 0x00, 0x00, 0x00, 0x00, 0x01, 0x00, 0x4C, 0x54,
];

fn least(list: &List) -> (u64, Vec<u16>) {
    let split = split::least(list);
    (split.value, split.side.into_iter().collect())
}

fn refused(number: u64, place: u64) -> Answer {
    Answer { number, place, fields: vec![] }
}

fn done(fields: &[u64]) -> Answer {
    Answer { number: 0, place: 0, fields: fields.to_vec() }
}

fn read(file: &[u8]) -> Answer {
    let mut lent = [[7u16; 2_048]; 3];
    let [a, b, w] = &mut lent;
    let answer = calls::read(file, a, b, w);
    if answer.number != 0 {
        assert_eq!(lent, [[7u16; 2_048]; 3], "a refusal writes nowhere");
    }
    answer
}

fn all_calls(given: Given) -> Vec<Answer> {
    let (mut short, mut wide, mut bytes) = ([0u16; 4_096], [0u32; 4_096], [0u8; 32_768]);
    vec![
        calls::write(given, &mut bytes),
        calls::order(given, &mut short.clone(), &mut wide.clone()),
        calls::forest(given, &mut wide),
        calls::kept(given, 1, &mut short.clone()),
        calls::short(given, 1, &mut short.clone(), &mut short.clone(), &mut short),
        calls::least(given),
        calls::fewer(given, 1),
        calls::summary(given),
    ]
}

#[test]
fn case_p() {
    assert_eq!(order::order(&p()).0, [0, 1]);
    assert_eq!(least(&p()), (0, vec![1]));
}

#[test]
fn case_q() {
    assert_eq!(least(&q()), (3, vec![1]));
    assert_eq!(order::kept(&q(), 2), [2]);
    assert_eq!(order::kept(&q(), 3), [3]);
    let list = Loose::of(&q());
    assert_eq!(calls::fewer(list.given(), 3), refused(17, 0));
    assert_eq!(calls::fewer(list.given(), 4), done(&[3, 2, 0, 1]));
}

#[test]
fn case_r() {
    assert_eq!(order::order(&r()).1, [0, 1, 2]);
    assert_eq!(order::firsts(&r()), [1, 2, 1]);
    assert_eq!(order::kept(&r(), 1), [1, 0, 1]);
    assert_eq!(least(&r()), (2, vec![2]));
}

#[test]
fn case_s() {
    assert_eq!(order::order(&s()), (vec![0, 2, 3, 1], vec![0, 5, 2, 2]));
    assert_eq!(order::kept(&s(), 1), [1, 1, 1, 0]);
    assert_eq!(order::kept(&s(), 2), [2, 1, 2, 1]);
    assert_eq!(least(&s()), (2, vec![1]));
}

#[test]
fn case_t() {
    assert_eq!(order::order(&t()).0, [0, 1, 2, 3, 4, 5]);
    assert_eq!(order::kept(&t(), 1), [1, 0, 1, 1, 0, 1, 1]);
    assert_eq!(least(&t()), (1, vec![3, 4, 5]));
    let degrees: Vec<u64> = (0..6).map(|node| split::value(&t(), |v| v == node)).collect();
    assert_eq!(degrees.iter().min(), Some(&2), "the smallest degree is not the least split");
}

#[test]
fn one_node() {
    let one = List::of(1, &[]);
    assert_eq!(order::order(&one).0, [0]);
    assert_eq!(calls::least(Loose::of(&one).given()), refused(16, 0));
    assert_eq!(calls::fewer(Loose::of(&one).given(), 5), refused(16, 0));
    assert_eq!(calls::fewer(Loose::of(&one).given(), 0), refused(15, 0));
}

#[test]
fn bad_lists() {
    for (list, number) in [(List::of(0, &[]), 9), (List::of(2, &[(1, 1, 1)]), 12), (List::of(2, &[(0, 2, 0)]), 11)] {
        for answer in all_calls(Loose::of(&list).given()) {
            assert_eq!(answer, refused(number, 0));
        }
    }
}

#[test]
fn q_file() {
    assert_eq!(read(&Q_FILE), done(&[2, 1]));
    assert_eq!(file::bytes(&q()), Q_FILE);
    for (byte, number) in [(0x00, 4), (0x01, 4), (0x09, 5), (0x07, 6)] {
        let mut damaged = Q_FILE;
        damaged[4] = byte;
        assert_eq!(read(&damaged), refused(number, 4));
    }
}

#[test]
fn limits() {
    let rows: Vec<(u16, u16, u16)> = (0..2_049).map(|r| (r % 128, (r + 1) % 128, 65_535)).collect();
    let full = List::of(128, &rows[..2_048]);
    for (call, answer) in all_calls(Loose::of(&full).given()).into_iter().enumerate() {
        let number = if call == 6 { 17 } else { 0 };
        assert_eq!(answer.number, number, "call {call}");
    }
    assert_eq!(read(&file::bytes(&full)), done(&[128, 2_048]));
    assert!(all_calls(Loose::of(&List::of(129, &[])).given()).iter().all(|answer| *answer == refused(9, 0)));
    let over = List::of(128, &rows);
    assert!(all_calls(Loose::of(&over).given()).iter().all(|answer| *answer == refused(10, 0)));
    assert_eq!(read(&file::bytes(&over)), refused(10, 0));
}

#[test]
fn small_files() {
    assert_eq!(read(&[0; 7]), refused(1, 0));
    assert_eq!(read(&[0; 32_769]), refused(1, 0));
    let mut file = Q_FILE;
    file[12] = 12;
    assert_eq!(read(&file), refused(7, 12));
    file[12] = 13;
    assert_eq!(read(&file), refused(3, 0));
    assert_eq!(read(&[0, 0, 0, 0, 0, 0, 0x4C, 0x54]), refused(7, 0));
    assert_eq!(read(&[0, 0, 0, 0, 0, 0, 0x4C, 0x53]), refused(2, 0));
}

#[test]
fn report_of_t() {
    let text = "nodes 6 rows 7 links 7 pairs 7\norder 0 1 2 3 4 5\nleast 1\nside 3 4 5\n";
    assert_eq!(report::text(&file::bytes(&t())), text);
    let mut out = [9u8; 80];
    assert_eq!(calls::report(&file::bytes(&t()), &mut out), done(&[text.len() as u64]));
    assert_eq!(&out[..text.len()], text.as_bytes());
    assert!(out[text.len()..].iter().all(|&byte| byte == 9));
    assert_eq!(calls::report(&file::bytes(&t()), &mut out[..text.len() - 1]), refused(14, 0));
}

#[test]
fn other_reports() {
    let one = "nodes 1 rows 0 links 0 pairs 0\norder 0\nrefused 16 at 0\n";
    assert_eq!(report::text(&file::bytes(&List::of(1, &[]))), one);
    let mut damaged = Q_FILE;
    damaged[4] = 7;
    assert_eq!(report::text(&damaged), "refused 6 at 4\n");
}

#[test]
fn refusals_in_order() {
    let bad_row = Loose::of(&List::of(2, &[(0, 2, 0)]));
    assert_eq!(calls::kept(bad_row.given(), 0, &mut []), refused(14, 0));
    assert_eq!(calls::kept(bad_row.given(), 0, &mut [0]), refused(11, 0));
    assert_eq!(calls::kept(Loose::of(&q()).given(), 0, &mut [0]), refused(15, 0));
    let mut unequal = Loose::of(&q());
    unequal.w.push(1);
    assert_eq!(calls::kept(unequal.given(), 0, &mut []), refused(10, 0));
    unequal.n = 65_793;
    assert_eq!(calls::kept(unequal.given(), 0, &mut []), refused(9, 0));
}

#[test]
fn ordering_once_is_wrong() {
    let list = List::of(4, &[(0, 1, 1), (0, 3, 1), (2, 3, 1), (0, 2, 1)]);
    assert_eq!(least(&list), (1, vec![1]));
}

#[test]
fn pairs_are_counted_as_written() {
    assert_eq!(List::of(3, &[(1, 2, 1), (2, 1, 1), (1, 2, 4)]).pairs(), 2);
}
