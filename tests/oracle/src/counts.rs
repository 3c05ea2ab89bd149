//! How often each answer of a run came, and each sort of the calls that an answer does not tell
//! apart; and which of them came too rarely, or though they cannot occur.

use crate::image::load;
use crate::run;
use crate::sorts::{mask_sorts, sort, Emptied, MASK_SORTS, SORTS, WAYS};

/// An answer that can occur and was reached fewer times than this was not tried well.
const LEAST: u64 = 20;

/// A row for each kind that is a call; row 0 is for unknown kinds.
const ROWS: usize = run::LAST_KIND as usize + 1;

/// Which of the numbers (RULES 9.1) can occur in a run for each kind.
/// A loaded machine is sound and stays so, so 1 cannot. Nothing gives 10 (RULES 9.2).
pub const CAN_OCCUR: [(&str, &[u8]); ROWS] = [
    ("unknown kind", &[18]),
    ("access", &[0, 2, 3, 8, 9]),
    ("grant", &[0, 2, 4, 5, 6, 8, 11, 12]),
    ("revoke", &[0, 2, 4, 5, 6, 8, 11, 12]),
    ("mask", &[0, 6, 8, 19]),
    ("entry", &[0, 13]),
    ("return", &[0, 7, 14]),
    ("switch", &[0, 7, 15, 16]),
    ("field store", &[0, 2, 4, 7]),
    ("context store", &[0, 7]),
    ("mask store", &[0, 7]),
    ("mode store", &[0, 7, 17]),
    ("question", &[0, 7]),
    ("access of two", &[0, 2, 3, 8, 9]),
];
pub const LOAD_CAN_OCCUR: (&str, &[u8]) = ("load", &[0, 20, 21, 22, 23, 24, 25]);

pub struct Table {
    load: [u64; 256],
    kinds: [[u64; 256]; ROWS],
    /// The accesses of two bytes across an edge, by sort.
    across: [u64; SORTS.len()],
    /// The mask commands, by sort.
    masks: [u64; MASK_SORTS.len()],
    /// The accesses denied by an empty local context, by what made it empty.
    emptied: [u64; WAYS.len()],
    too_long: u64,
}

impl Table {
    pub fn new() -> Table {
        Table {
            load: [0; 256],
            kinds: [[0; 256]; ROWS],
            across: [0; SORTS.len()],
            masks: [0; MASK_SORTS.len()],
            emptied: [0; WAYS.len()],
            too_long: 0,
        }
    }

    pub fn count(&mut self, input: &[u8], answers: &[u8]) {
        let Some((&load, calls)) = answers.split_first() else {
            self.too_long += 1;
            return;
        };
        self.load[load as usize] += 1;
        let (_, records) = run::split(input);
        for (record, &answer) in records.chunks_exact(run::RECORD).zip(calls) {
            let kind = if record[0] <= run::LAST_KIND { record[0] } else { 0 };
            self.kinds[kind as usize][answer as usize] += 1;
        }
        self.count_sorts(input);
    }

    /// No answer tells a sort, so the records are stepped through once more.
    fn count_sorts(&mut self, input: &[u8]) {
        let (image, records) = run::split(input);
        let Ok(mut machine) = load(image) else {
            return;
        };
        let mut emptied = Emptied::default();
        for record in records.chunks_exact(run::RECORD) {
            if let Some((_, sort)) = sort(&machine, record) {
                self.across[sort] += 1;
            }
            for (times, is_one) in self.masks.iter_mut().zip(mask_sorts(&machine, record)) {
                *times += u64::from(is_one);
            }
            if let Some(way) = emptied.denies(&machine, record) {
                self.emptied[way] += 1;
            }
            let number = run::step(&mut machine, record).number();
            emptied.after(&machine, record, number);
        }
    }

    pub fn calls(&self) -> u64 {
        self.kinds.iter().flatten().sum()
    }

    fn rows(&self) -> Vec<(&'static str, &'static [u8], &[u64; 256])> {
        let kinds = (1..ROWS).chain([0]).map(|kind| (CAN_OCCUR[kind].0, CAN_OCCUR[kind].1, &self.kinds[kind]));
        [(LOAD_CAN_OCCUR.0, LOAD_CAN_OCCUR.1, &self.load)].into_iter().chain(kinds).collect()
    }

    /// What the sorts are of, and each with how often it came.
    fn sorts(&self) -> Vec<(&'static str, Vec<(&'static str, u64)>)> {
        vec![
            ("access of two bytes across an edge", SORTS.into_iter().zip(self.across).collect()),
            ("mask command", MASK_SORTS.into_iter().zip(self.masks).collect()),
            ("access denied by an empty local context", WAYS.into_iter().zip(self.emptied).collect()),
        ]
    }

    /// The table, for people.
    pub fn text(&self) -> String {
        let mut text = format!("{:14}answer:times\n{:14}{}\n", "", "too long", self.too_long);
        for (name, can_occur, counts) in self.rows() {
            text += &format!("{name:14}");
            for answer in 0..=255u8 {
                let times = counts[answer as usize];
                if times > 0 || can_occur.contains(&answer) {
                    text += &format!(" {answer}:{times}");
                }
            }
            text += "\n";
        }
        for (what, sorts) in self.sorts() {
            text += &format!("{what}:\n");
            for (sort, times) in sorts {
                text += &format!("{:14} {sort}: {times}\n", "");
            }
        }
        text
    }

    /// What can occur and came too rarely, and what came and cannot occur, a line for each.
    pub fn wrong(&self) -> String {
        let mut wrong = String::new();
        for (name, can_occur, counts) in self.rows() {
            for answer in 0..=255u8 {
                let times = counts[answer as usize];
                let possible = can_occur.contains(&answer);
                if possible && times < LEAST {
                    wrong += &format!("compare: {name} answered {answer} {times} times, fewer than {LEAST}\n");
                }
                if !possible && times > 0 {
                    wrong += &format!("compare: {name} answered {answer}, which cannot occur\n");
                }
            }
        }
        for (what, sorts) in self.sorts() {
            for (sort, times) in sorts.into_iter().filter(|(_, times)| *times < LEAST) {
                wrong += &format!("compare: {what}, {sort}, {times} times, fewer than {LEAST}\n");
            }
        }
        wrong
    }
}
