//! 26: each of its three reasons alone and with the others, its place before 27 and after 1;
//! and machines that are at rest again.

use super::*;
use crate::cases::{clear_flag, turn};

pub fn add(writes: &mut Writes) {
    one_reason(writes);
    more_reasons(writes);
    at_rest_again(writes);
}

/// The same run in buffers that would do and in such that would not: 26 comes first.
fn in_rooms(writes: &mut Writes, purpose: &str, rooms: &[u16], plan: &Plan, steps: &[Step]) {
    for &room in rooms {
        writes.refused(&format!("{purpose}, room {room}"), room, plan, steps, 26);
    }
}

fn one_reason(writes: &mut Writes) {
    in_rooms(writes, "program 1 is current", &[44, 43, 0, 60], &sample(), &turn(1));
    in_rooms(writes, "program 1 is current, in privileged mode", &[44], &privileged_second(), &turn(1));
    let eight = Plan { exponent: 5, pages: vec![(0x1234, 0xFEDC)], programs: eight_programs() };
    in_rooms(writes, "program 7 of eight is current", &[66, 65], &eight, &turn(7));

    in_rooms(writes, "depth 1", &[44, 43, 0, 60], &sample(), &[(entry_call(), 0)]);
    in_rooms(writes, "depth 1 of a privileged program", &[44], &privileged_first(), &[(entry_call(), 0)]);
    in_rooms(writes, "depth 1 in user mode", &[44, 43], &sample(), &[(entry_call(), 0), (store_mode(0), 0)]);
    in_rooms(writes, "depth 8", &[44], &sample(), &[(entry_call(), 0); 8]);
    in_rooms(
        writes,
        "depth 1 after eight entries and seven returns",
        &[44],
        &sample(),
        &[[(entry_call(), 0); 8].to_vec(), [(return_call(), 0); 7].to_vec()].concat(),
    );
    in_rooms(
        writes,
        "depth 1 after a switch away and back",
        &[44],
        &sample(),
        &[(entry_call(), 0), (switch(1), 0), (switch(0), 0)],
    );

    in_rooms(writes, "the flag is set by a read", &[44, 43, 0, 60], &sample(), &[(read(512), 9)]);
    in_rooms(writes, "the flag is set by a write", &[44], &sample(), &[(write(0), 9), (mask(0x0007), 8)]);
    in_rooms(
        writes,
        "the flag is set again",
        &[44],
        &sample(),
        &[vec![(read(512), 9)], clear_flag(), vec![(write(767), 9)]].concat(),
    );
}

fn more_reasons(writes: &mut Writes) {
    let current_and_depth = [(entry_call(), 0), (switch(1), 0)];
    in_rooms(writes, "program 1 is current and depth 1", &[44, 43, 0], &sample(), &current_and_depth);
    let current_and_flag = [turn(1), vec![(write(0), 9)]].concat();
    in_rooms(writes, "program 1 is current and the flag is set", &[44, 43, 0], &sample(), &current_and_flag);
    let depth_and_flag = [(entry_call(), 0), (store_mode(0), 0), (read(512), 9)];
    in_rooms(writes, "depth 1 and the flag is set", &[44, 43, 0], &sample(), &depth_and_flag);
    let all = [(entry_call(), 0), (switch(1), 0), (store_mode(0), 0), (write(0), 9)];
    in_rooms(writes, "program 1 is current, depth 1 and the flag is set", &[44, 43, 0], &sample(), &all);
}

fn at_rest_again(writes: &mut Writes) {
    let mut unchanged = |purpose: &str, steps: &[Step]| {
        writes.sample(purpose, &sample(), steps, SAMPLE_PAGES, SAMPLE_PROGRAMS);
    };
    unchanged("entry and return", &clear_flag());
    unchanged(
        "eight entries, 13, eight returns",
        &[
            [(entry_call(), 0); 8].to_vec(),
            vec![(entry_call(), 13)],
            [(return_call(), 0); 8].to_vec(),
            vec![(return_call(), 7)],
        ]
        .concat(),
    );
    unchanged(
        "a violation, cleared by entry and return",
        &[vec![(read(512), 9), (mask(0x0007), 8)], clear_flag()].concat(),
    );
    unchanged(
        "depth, another program and the flag, one after another, each gone at the end",
        &[turn(1), vec![(read(0), 0), (write(0), 9)], turn(0), vec![(read(512), 9)], clear_flag()].concat(),
    );
    let at_rest = [vec![(read(512), 9)], clear_flag()].concat();
    writes.refused("at rest again, but one byte short", 43, &sample(), &at_rest, 27);
    writes.refused("at rest again after a switch, room 0", 0, &sample(), &[turn(1), turn(0)].concat(), 27);
}
