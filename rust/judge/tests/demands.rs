//! The judge against itself: the least split against every division, kept weights against cables counted one by one, and what
//! document 01 says of thinning, the file and the side, on random lists.

use judge::random::{list, Random};
use judge::{calls, file, order, split};

#[test]
fn least_against_every_division() {
    let mut random = Random::new(1);
    for _ in 0..3_000 {
        let list = list(&mut random, 9, 24);
        if list.n < 2 {
            continue;
        }
        let least = split::least(&list);
        assert_eq!(least.value, split::brute(&list), "{list:?}");
        assert_eq!(least.value, split::value(&list, |v| least.side.contains(&v)), "{list:?}");
        assert!(!least.side.is_empty() && !least.side.contains(&0), "{list:?}");
    }
}

#[test]
fn thinning() {
    let mut random = Random::new(2);
    for _ in 0..1_500 {
        let list = list(&mut random, 8, 20);
        let k = random.between(1, 6);
        let kept = order::kept(&list, k);
        if list.links() < 10_000 {
            assert_eq!(kept, order::kept_by_cable(&list, k), "{list:?} for {k}");
        }
        assert!(kept.iter().sum::<u64>() <= k * u64::from(list.n - 1), "{list:?} for {k}");
        if list.n >= 2 {
            let short = order::short(&list, k);
            for (before, after) in split::divisions(&list).zip(split::divisions(&short)) {
                assert!(after <= before && after >= before.min(k), "{list:?} for {k}");
            }
        }
    }
}

#[test]
fn written_files_read_back() {
    let mut random = Random::new(3);
    for _ in 0..1_000 {
        let list = list(&mut random, 128, 40);
        assert_eq!(calls::reads(&file::bytes(&list), [list.rows.len(); 3]).as_ref(), Ok(&list));
    }
}
