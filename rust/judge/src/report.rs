//! The printing program's text for one file.

use crate::{calls, order, split, List};

/// All that the program writes for the file, every line with its newline.
pub fn text(file: &[u8]) -> String {
    match calls::reads(file, [2_048; 3]) {
        Err(refusal) => refused(refusal.number, refusal.place),
        Ok(list) => of_list(&list),
    }
}

fn refused(number: u64, place: u64) -> String {
    format!("refused {number} at {place}\n")
}

fn of_list(list: &List) -> String {
    let numbers = |word: &str, numbers: Vec<u16>| {
        numbers.iter().fold(word.to_string(), |line, v| format!("{line} {v}")) + "\n"
    };
    let mut text = format!(
        "nodes {} rows {} links {} pairs {}\n",
        list.n,
        list.rows.len(),
        list.links(),
        list.pairs()
    );
    text += &numbers("order", order::order(list).0);
    if list.n == 1 {
        return text + &refused(16, 0);
    }
    let least = split::least(list);
    text += &format!("least {}\n", least.value);
    text + &numbers("side", least.side.into_iter().collect())
}
