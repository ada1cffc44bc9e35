//! The makers of input against the model itself: nothing panics, every outcome
//! occurs, and what must hold of any run of calls holds of these.

use crate::console::{bytes, number, Console, Execute};
use crate::generate;
use crate::journal::{self, replay, HEADER, LINE};
use crate::met;
use crate::misread::FIELDS;
use crate::recount::nest;
use crate::tables::{id_type, Match, Status, Tables, CMD_INFO, CMD_TYPE};
use crate::tlv::{Place, Version};
use crate::undo::line_at;
use std::collections::BTreeMap;

type Counts = BTreeMap<u64, u64>;

/// Edges of lengths, as they are told.
type Edges = BTreeMap<String, u64>;

/// Counts the edges of request 2026-02 that a payload has for a device.
fn edges_of(edges: &mut Edges, payload: &[u8]) {
    let mut tell = |what: String| *edges.entry(what).or_default() += 1;
    walk(payload, Place::Top, &mut tell);
    let status = |version| Tables::empty(62).execute(payload, version);
    if status(Version::DEVICE) == Status::Einval && status(Version::One) != Status::Einval {
        tell("in the old meaning".to_string());
    }
}

/// As far as it is well formed.
fn walk(region: &[u8], place: Place, tell: &mut dyn FnMut(String)) {
    let mut at = 0;
    while let Some(head) = region.get(at..at + 8) {
        let kind = u32::from_le_bytes([head[0], head[1], head[2], head[3]]);
        let length = usize::from(u16::from_le_bytes([head[4], head[5]]));
        let end = at + length;
        let listed = match place {
            Place::Top => [CMD_TYPE, CMD_INFO].contains(&kind),
            Place::Info => FIELDS.iter().any(|(known, _, _)| *known == kind),
            Place::Members => true,
        };
        let unlisted = if listed { "" } else { ", unlisted" };
        match length {
            0..=7 => return tell(format!("{place:?} {length}{unlisted}")),
            8 => tell(format!("{place:?} 8")),
            65_519.. => tell(format!("{place:?} near 65,535")),
            _ if end > region.len() && end < region.len() + 8 => {
                tell(format!("{place:?} past by less than 8"))
            }
            _ => {}
        }
        if let (Some(inside), Some(value)) = (nest(place, kind), region.get(at + 8..end)) {
            walk(value, inside, tell);
        }
        at = end.next_multiple_of(8);
    }
}

/// All edges that makers aim at.
#[track_caller]
fn all_edges(edges: &Edges) {
    let mut expected = vec!["in the old meaning".to_string()];
    for place in ["Top", "Info", "Members"] {
        let more = ["8", "near 65,535", "past by less than 8"];
        expected.extend(more.map(|what| format!("{place} {what}")));
        expected.extend((0..8).map(|length| format!("{place} {length}")));
    }
    for place in ["Top", "Info"] {
        expected.extend((0..8).map(|length| format!("{place} {length}, unlisted")));
    }
    for what in expected {
        assert!(edges.contains_key(&what), "{what} does not occur");
    }
}

fn count(counts: &mut Counts, key: u64) {
    *counts.entry(key).or_default() += 1;
}

#[derive(Default)]
struct Seen {
    answers: Counts,
    statuses: Counts,
    copies: Counts,
    tables: Counts,
    groups: Counts,
    /// Live routes by EtherType.
    routes: Counts,
    /// Routed copies by what they show.
    routed: Edges,
    most_flows: usize,
    most_groups: usize,
    errors: u64,
    edges: Edges,
}

impl Seen {
    fn look(&mut self, tables: &Tables) {
        for flow in tables.flows.values() {
            count(&mut self.tables, u64::from(flow.table()));
            if let Match::Route { ethertype, .. } = flow.matching {
                count(&mut self.routes, ethertype as u64);
            }
        }
        for id in tables.groups.keys() {
            count(&mut self.groups, u64::from(id_type(*id)));
        }
        self.most_flows = self.most_flows.max(tables.flows.len());
        self.most_groups = self.most_groups.max(tables.groups.len());
    }
}

impl Seen {
    /// Counts a routed copy: to which EtherType, tagged or not, where to.
    fn routed(&mut self, words: &[&str], copy: &[&str]) {
        let frame = bytes(words[2]).unwrap();
        if copy.len() != 9 || copy[3..].iter().all(|number| *number == "0") {
            return;
        }
        let tagged = frame[12..14] == [0x81, 0];
        let at = if tagged { 16 } else { 12 };
        let mut tell = |what: String| *self.routed.entry(what).or_default() += 1;
        tell(format!(
            "{} {}",
            if frame[at] == 8 { "IPv4" } else { "IPv6" },
            if tagged { "tagged" } else { "untagged" }
        ));
        match number(copy[0]) {
            Ok(0) => tell("to the host".to_string()),
            port if port == number(words[1]) => tell("to the ingress port".to_string()),
            _ => tell("to another port".to_string()),
        }
        if frame.len() == at + 2 + if frame[at] == 8 { 20 } else { 40 } {
            tell("only just long enough".to_string());
        }
        tell(format!("POP_VLAN {}", copy[2]));
    }
}

/// What was posted and consumed, told from the calls and their answers alone.
#[derive(Default)]
struct Book {
    size: u64,
    head: u64,
    posted: Vec<u64>,
    consumed: Vec<u64>,
    trail: Vec<u8>,
}

impl Book {
    fn forget(&mut self) {
        self.head = 0;
        self.posted.clear();
        self.consumed.clear();
    }

    /// An accepted write.
    fn written(&mut self, width: u64, offset: u64, value: u64) {
        let value = if width == 4 {
            value & 0xffff_ffff
        } else {
            value
        };
        match (width, offset) {
            (8, 0x1000) | (4, 0x1004) => self.forget(),
            (4, 0x1008) => {
                self.forget();
                self.size = value;
            }
            (4, 0x1014 | 0x300) if value & 1 == 1 => {
                self.forget();
                self.size = 0;
                if offset == 0x300 {
                    self.trail.clear();
                }
            }
            (4, 0x100c) => {
                while self.head != value {
                    self.posted.push(self.head);
                    self.head = (self.head + 1) % self.size;
                }
            }
            _ => {}
        }
    }

    fn worked(&mut self, line: &[u8]) {
        self.consumed
            .push(u64::from(u16::from_le_bytes([line[4], line[5]])));
        self.trail.extend(line);
        let last = self.consumed.len() - 1;
        assert_eq!(self.posted.get(last), self.consumed.last());
    }
}

fn run(seed: u64, calls: u64, seen: &mut Seen) {
    let script = generate::script(seed, calls);
    assert_eq!(script, generate::script(seed, calls));
    let mut console = Console::default();
    let mut book = Book::default();
    for (at, line) in script.split('\n').enumerate() {
        let printed = match console.line(line.as_bytes()) {
            Ok(Some(printed)) => printed,
            Ok(None) => continue,
            Err(_) => {
                seen.errors += 1;
                continue;
            }
        };
        let words: Vec<&str> = line.split(' ').collect();
        let told: Vec<&str> = printed.split(' ').collect();
        if words[0] == "peek" {
            continue;
        }
        let answer = number(told[0]).unwrap();
        count(&mut seen.answers, answer);
        match (words[0], answer) {
            ("fresh", 0) => book = Book::default(),
            ("write", 0) => {
                let value = |at: usize| number(words[at]).unwrap();
                book.written(value(1), value(2), value(3));
            }
            ("work", 0) => {
                let line = bytes(told[2]).unwrap();
                count(
                    &mut seen.statuses,
                    u64::from(line[0]) | u64::from(line[1] & 0x7f) << 8,
                );
                edges_of(&mut seen.edges, &line[LINE..]);
                book.worked(&line);
            }
            // Nothing is outstanding exactly if all that was posted is consumed.
            ("work", 3) => assert_eq!(book.posted.len(), book.consumed.len()),
            ("frame", 0) => {
                count(&mut seen.copies, number(told[1]).unwrap());
                seen.routed(&words, &told[2..]);
            }
            _ => {}
        }
        if at % 16 == 0 {
            if let Some(device) = &console.device {
                seen.look(&device.tables);
            }
        }
    }
    // The trail of the device tells all that its tables hold.
    let device = console.device.unwrap();
    let ports = device.registers.ports as u8;
    let trail = [&journal::header(ports)[..], &book.trail[..]].concat();
    assert_eq!(replay(&trail).map(|done| done.tables), Ok(device.tables));
}

#[track_caller]
fn all(counts: &Counts, expected: &[u64]) {
    for key in expected {
        assert!(counts.contains_key(key), "{key} does not occur");
    }
}

/// Scripts of these seeds meet all of it, together.
#[track_caller]
pub fn meet(seeds: [u64; 4], counts: fn(&[u8]) -> met::Counts, expected: &[(&'static str, u32)]) {
    let mut all = met::Counts::new();
    for seed in seeds {
        for (what, count) in counts(generate::script(seed, 4_000).as_bytes()) {
            *all.entry(what).or_default() += count;
        }
    }
    println!("{all:?}");
    for what in expected {
        assert!(all.contains_key(what), "{what:?} does not occur");
    }
}

#[test]
fn scripts_meet_sizes_on_all_edges() {
    meet([5, 13, 21, 29], met::sizes, &met::all_sizes());
}

#[test]
fn console_scripts_reach_every_outcome() {
    let mut seen = Seen::default();
    for seed in 0..48 {
        run(seed, 2_000, &mut seen);
    }
    println!("answers {:?}", seen.answers);
    println!("statuses {:?}", seen.statuses);
    println!("copies {:?}", seen.copies);
    println!("live flows by table, every 16th line {:?}", seen.tables);
    println!("live groups by type, every 16th line {:?}", seen.groups);
    println!(
        "live routes by EtherType, every 16th line {:?}",
        seen.routes
    );
    println!("routed copies {:?}", seen.routed);
    println!(
        "at most {} flows, {} groups",
        seen.most_flows, seen.most_groups
    );
    println!("lines that are no calls {}", seen.errors);
    println!("lengths {:?}", seen.edges);
    all(&seen.answers, &[0, 1, 2, 3, 4, 5, 6, 7, 8, 9]);
    all(&seen.statuses, &[0, 2, 6, 12, 17, 22, 90, 95]);
    all(&seen.copies, &[0, 1, 2, 3, 62]);
    all(&seen.tables, &[0, 10, 20, 30, 50]);
    all(&seen.groups, &[0, 2, 3, 4]);
    all(&seen.routes, &[0x0800, 0x86dd]);
    for what in [
        "IPv4 tagged",
        "IPv4 untagged",
        "IPv6 tagged",
        "IPv6 untagged",
        "to the host",
        "to the ingress port",
        "to another port",
        "only just long enough",
        "POP_VLAN 0",
        "POP_VLAN 1",
    ] {
        assert!(seen.routed.contains_key(what), "{what} does not occur");
    }
    assert_eq!((seen.most_flows, seen.most_groups), (256, 128));
    assert!(seen.errors > 0);
    all_edges(&seen.edges);
}

/// What trails have of the three versions.
#[derive(Default)]
struct Trails {
    faults: Counts,
    versions: Counts,
    /// Trails that are good, by version.
    good: Counts,
    /// Lines of good trails that are EINVAL, but not in the other version.
    others: u64,
    /// Trails whose lines disagree, but not in another version.
    swapped: u64,
    /// Good trails of versions 2 and 3 that are none in the other of the two, by version.
    told_apart: Counts,
}

impl Trails {
    fn look(&mut self, trail: &[u8]) {
        let fault = replay(trail).map_or_else(|r| r.fault as u64, |_| 0);
        count(&mut self.faults, fault);
        if trail.len() < HEADER || !trail.starts_with(b"RKT") {
            return;
        }
        let version = u16::from_le_bytes([trail[3], trail[4]]);
        count(&mut self.versions, version.into());
        let Some(known) = journal::version(trail) else {
            return;
        };
        let good_as = |other: u8| {
            let mut trail = trail.to_vec();
            trail[3] = other;
            replay(&trail).is_ok()
        };
        match fault {
            0 => count(&mut self.good, version.into()),
            14 => self.swapped += u64::from([1, 2, 3].into_iter().any(good_as)),
            _ => {}
        }
        // Commands that only version 3 has, in a trail that is good as it stands alone.
        if fault == 0 && known != Version::One {
            let other = if known == Version::Two { 3 } else { 2 };
            count(
                &mut self.told_apart,
                u64::from(known as u16 * u16::from(!good_as(other))),
            );
        }
        let mut at = HEADER;
        while let (0, Some(line)) = (fault, line_at(trail, at)) {
            let status = |version| Tables::empty(62).execute(&line[LINE..], version);
            let is_other =
                status(known) == Status::Einval && status(known.other()) != Status::Einval;
            self.others += u64::from(is_other);
            at += line.len();
        }
    }

    #[track_caller]
    fn reach(&self, versions: &[u64]) {
        println!("faults {:?}", self.faults);
        println!("versions {:?}, good {:?}", self.versions, self.good);
        println!(
            "lines in the other meaning {}, trails of the other version {}",
            self.others, self.swapped
        );
        all(&self.faults, &[0, 10, 11, 12, 13, 14]);
        all(&self.versions, versions);
        all(&self.good, &[1, 2, 3]);
        assert_eq!(self.good.len(), 3);
        assert!(self.others > 0 && self.swapped > 0);
        println!("told apart {:?}", self.told_apart);
        all(&self.told_apart, &[2, 3]);
        let total: u64 = self.versions.values().sum();
        assert!([1, 2, 3]
            .iter()
            .all(|version| self.versions[version] > total / 6));
    }
}

#[test]
fn trails_reach_every_fault() {
    let mut trails = Trails::default();
    for seed in 0..1_200 {
        trails.look(&generate::journal(seed));
    }
    trails.reach(&[
        0, 1, 2, 3, 4, 5, 0x0103, 0x0300, 0x0200, 0x0100, 0x0101, 0x0202, 65_535,
    ]);
}

#[test]
fn evenings_have_all_versions() {
    let mut trails = Trails::default();
    for seed in 0..1_200 {
        trails.look(&generate::evening(seed).trail);
    }
    trails.reach(&[1, 2, 3, 4]);
}

#[test]
fn payload_scripts_reach_every_status() {
    let mut seen = Seen::default();
    for seed in 0..20 {
        let mut execute = Execute::default();
        for line in generate::payloads(seed, 2_000).split('\n') {
            if let Some(payload) = line.strip_prefix("payload ") {
                edges_of(&mut seen.edges, &bytes(payload).unwrap());
            }
            if let Some(printed) = execute.line(line.as_bytes()).unwrap() {
                let code = printed.split(' ').next().unwrap_or_default();
                count(&mut seen.statuses, number(code).unwrap());
            }
            if let Some(tables) = &execute.tables {
                seen.look(tables);
            }
        }
    }
    println!("statuses {:?}", seen.statuses);
    println!("lengths {:?}", seen.edges);
    all(&seen.statuses, &[0, 2, 12, 17, 22, 95]);
    assert_eq!((seen.most_flows, seen.most_groups), (256, 128));
    all_edges(&seen.edges);
}
