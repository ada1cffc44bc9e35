//! How often a script meets what two requests are about: 2026-05, mods that move
//! a flow, ties that the cookie decides, and adds to a place that was freed;
//! 2026-04, SIZEs by the ones that they have.

use crate::console::{number, Console};
use crate::order;
use crate::tables::{field, Flow, Match, Tables, FLOW_LIMIT};
use std::collections::BTreeMap;

/// What is counted, with a number: the field by which a mod moves a flow, the
/// table of a tie, the flows that are live again after a del and an add; of SIZEs
/// see `sized`.
pub type Counts = BTreeMap<(&'static str, u32), u64>;

pub const ALL: [(&str, u32); 9] = [
    ("moved", field::TBL),
    ("moved", field::PRIORITY),
    ("moved", field::DST_IP_MASK),
    ("tie", 0),
    ("tie", 10),
    ("tie", 20),
    ("tie", 30),
    ("tie", 50),
    ("refilled", FLOW_LIMIT as u32),
];

/// The field by which a mod has moved a flow; that of a prefix has the number of its mask.
fn moved(cookie: u64, [before, after]: [&Tables; 2]) -> Option<u32> {
    let (old, new) = (before.flows.get(&cookie)?, after.flows.get(&cookie)?);
    let length = |flow: &Flow| match &flow.matching {
        Match::Route { prefix, .. } => prefix.length(),
        _ => 0,
    };
    match () {
        _ if old == new => None,
        _ if old.table() != new.table() => Some(field::TBL),
        _ if before.order.before(cookie) == after.order.before(cookie) => None,
        _ if length(old) != length(new) => Some(field::DST_IP_MASK),
        _ => Some(field::PRIORITY),
    }
}

/// Carries a script out, the order checked all the while.
pub fn counts(script: &[u8]) -> Counts {
    order::check();
    order::ties();
    let (mut counts, mut console, mut freed) = (Counts::new(), Console::default(), false);
    let mut tell =
        |what: &'static str, number: u32| *counts.entry((what, number)).or_default() += 1;
    for line in script.split(|byte| *byte == b'\n') {
        let tables = |console: &Console| console.device.as_ref().map(|d| d.tables.clone());
        let before = tables(&console).filter(|_| line.starts_with(b"work "));
        // What a line prints, and whether it is a call, is not asked here.
        let _ = console.line(line);
        order::ties()
            .into_iter()
            .for_each(|table| tell("tie", table.into()));
        let (Some(before), Some(after)) = (before, tables(&console)) else {
            continue;
        };
        let cookies = before.flows.keys();
        let mods = cookies.filter_map(|cookie| moved(*cookie, [&before, &after]));
        mods.for_each(|field| tell("moved", field));
        match (before.flows.len(), after.flows.len()) {
            (FLOW_LIMIT, live) if live < FLOW_LIMIT => freed = true,
            (_, FLOW_LIMIT) if freed => {
                tell("refilled", FLOW_LIMIT as u32);
                freed = false;
            }
            _ => {}
        }
    }
    counts
}

/// The SIZEs that are taken, and what is told of the others.
pub fn all_sizes() -> Vec<(&'static str, u32)> {
    let refused = [("ones", 0), ("ones", 2), ("ones", 3)];
    let outside = [("below", 1), ("above", 1), ("above", 2)];
    let dropped = [("dropped", 0), ("dropped", 2)];
    let taken = (1..=16).map(|bit| ("size", 1 << bit));
    let others = [&refused[..], &outside, &dropped].concat();
    taken.chain(others).collect()
}

/// What a write of SIZE shows, by the number handed in and its answer: a SIZE that
/// is taken; of one that is refused its ones, 3 within the range and 2 above it
/// standing for more too. Ones above bit 31 are told of with the answer, where a
/// SIZE is taken without them, or refused though all 64 bits have a single one.
fn sized(handed: u64, answer: u32) -> Vec<(&'static str, u32)> {
    let (size, ones) = (handed as u32, (handed as u32).count_ones());
    let mut told = vec![match size {
        _ if answer == 0 => ("size", size),
        0 => ("ones", 0),
        1 => ("below", 1),
        2..=65_536 => ("ones", ones.min(3)),
        _ => ("above", ones.min(2)),
    }];
    if handed >> 32 != 0 && (answer == 0 || handed.count_ones() == 1) {
        told.push(("dropped", answer));
    }
    told
}

/// The number that a line hands to SIZE in 4 bytes.
fn handed_to_size(line: &[u8]) -> Option<u64> {
    let words: Vec<&str> = std::str::from_utf8(line).ok()?.split(' ').collect();
    let ["write", width, offset, value] = words[..] else {
        return None;
    };
    match (number(width), number(offset)) {
        (Ok(4), Ok(0x1008)) => number(value).ok(),
        _ => None,
    }
}

/// Carries a script out and looks at its SIZEs.
pub fn sizes(script: &[u8]) -> Counts {
    let (mut counts, mut console) = (Counts::new(), Console::default());
    for line in script.split(|byte| *byte == b'\n') {
        let Ok(Some(told)) = console.line(line) else {
            continue;
        };
        let answer = told.split(' ').next().and_then(|word| word.parse().ok());
        let (Some(handed), Some(answer)) = (handed_to_size(line), answer) else {
            continue;
        };
        for what in sized(handed, answer) {
            *counts.entry(what).or_default() += 1;
        }
    }
    counts
}
