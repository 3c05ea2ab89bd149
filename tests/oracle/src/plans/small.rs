//! Every list of up to four contexts whose entries are none, a number below the count or the count
//! itself: all forests of up to four contexts, all that have a cycle, and a wrong parent in every
//! place. What each is due is not written here; the tests hold all of them to laws.

use super::{Plans, NO};

pub fn add(plans: &mut Plans) {
    for count in 0..=4 {
        for list in lists(count) {
            let purpose = format!("every list of {count}:{}", shown(&list));
            plans.add(purpose, &list, None);
        }
    }
}

/// All lists of so many contexts, one entry longer with each round.
fn lists(count: u8) -> Vec<Vec<u8>> {
    let entries: Vec<u8> = (0..=count).chain([NO]).collect();
    let mut lists = vec![vec![]];
    for _ in 0..count {
        let pairs = lists.iter().flat_map(|list| entries.iter().map(move |&entry| (list, entry)));
        lists = pairs.map(|(list, entry): (&Vec<u8>, u8)| [&list[..], &[entry]].concat()).collect();
    }
    lists
}

fn shown(list: &[u8]) -> String {
    let entries = list.iter().map(|&entry| if entry == NO { String::from(" -") } else { format!(" {entry}") });
    entries.collect()
}
