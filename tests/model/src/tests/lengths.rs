//! Request 2026-02: what a length counts.

use super::*;
use crate::journal::{header_of, line, replay, report, Fault};
use crate::recount::{newer, older};
use crate::tables::{Status, Tables};
use crate::tlv::Version::{self, One, Two};

fn status(payload: &[u8], version: Version) -> Status {
    let mut tables = Tables::empty(4);
    let status = tables.execute(payload, version);
    if status != Status::Ok {
        assert_eq!(tables, Tables::empty(4));
    }
    status
}

/// A TLV of any length, with the bytes behind its header.
fn raw(kind: u32, length: u16, body: &[u8]) -> Vec<u8> {
    let mut out = kind.to_le_bytes().to_vec();
    out.extend(length.to_le_bytes());
    out.extend([0, 0]);
    out.extend(body);
    out
}

fn command(code: u8, info: &[u8]) -> Vec<u8> {
    tlvs(&[(1, &[code, 0]), (2, info)])
}

#[test]
fn the_payload_in_both_meanings() {
    let (new, old) = (worked_example(), old_example());
    let places = [4, 20, 28, 44, 60];
    let lengths = |payload: &[u8]| places.map(|at| payload[at]);
    assert_eq!(lengths(&old), [0x02, 0x30, 0x04, 0x04, 0x01]);
    assert_eq!(lengths(&new), [0x0a, 0x38, 0x0c, 0x0c, 0x09]);
    let differ: Vec<usize> = (0..72).filter(|at| old[*at] != new[*at]).collect();
    assert_eq!(differ, places);
    for (payload, version) in [(&new, Two), (&old, One)] {
        let mut tables = Tables::empty(4);
        assert_eq!(tables.execute(payload, version), Status::Ok);
        assert_eq!(tables.execute(payload, version), Status::Eexist);
        assert_eq!(Tables::empty(1).execute(payload, version), Status::Einval);
    }
    assert_eq!(status(&old, Two), Status::Einval);
    assert_eq!(status(&new, One), Status::Einval);
    assert_eq!(Tables::empty(4).obey(&new), Status::Ok);
    assert_eq!(Tables::empty(4).obey(&old), Status::Einval);
    assert_eq!((newer(&old), older(&new)), (new, old));
}

#[test]
fn each_version_is_replayed_by_its_own_meaning() {
    let good = "ports 4\nlines 1\ncharged 1\nflows 0\ngroups 1\n";
    let bad = "ports 4\nlines 1\ncharged 0\nflows 0\ngroups 0\n";
    let trail = |version, stamp, payload: &[u8]| {
        report(&[header_of(version, 4), line(stamp, 0, payload)].concat())
    };
    for (version, own, other) in [
        (1, old_example(), worked_example()),
        (2, worked_example(), old_example()),
        (3, worked_example(), old_example()),
    ] {
        assert_eq!(trail(version, 0x8000, &own), good);
        assert_eq!(trail(version, 0x8016, &own), "refused 14 line 1\n");
        assert_eq!(trail(version, 0x8000, &other), "refused 14 line 1\n");
        assert_eq!(trail(version, 0x8016, &other), bad);
    }
    for version in (0..=0xffff).filter(|version| ![1, 2, 3].contains(version)) {
        let trail = [header_of(version, 63), vec![1]].concat();
        assert_eq!(replay(&trail).map_err(|r| r.fault), Err(Fault::Version));
    }
}

#[test]
fn member_lists_have_the_meaning_of_their_trail() {
    let new = list_group(7, 0x3005_0000, &[0x0005_0001, 0x0005_0002]);
    let old = older(&new);
    assert_eq!(
        (status(&new, Two), status(&old, One)),
        (Status::Ok, Status::Ok)
    );
    // The lengths of CMD_INFO, GROUP_IDS, and the two members.
    let places = [20, 60, 68, 84];
    assert_eq!(places.map(|at| new[at]), [80, 40, 12, 12]);
    assert_eq!(places.map(|at| old[at]), [72, 32, 4, 4]);
    for at in places {
        let (mut more, mut less) = (old.clone(), new.clone());
        more[at] += 8;
        less[at] -= 8;
        assert_eq!(status(&more, One), Status::Einval);
        assert_eq!(status(&less, Two), Status::Einval);
    }
}

#[test]
fn lengths_7_8_and_9_at_the_top() {
    let good = worked_example();
    for length in 0..=17 {
        let expected = |right: bool| if right { Status::Ok } else { Status::Einval };
        let alone = [&good[..], &raw(99, length, &[])].concat();
        assert_eq!(status(&alone, Two), expected(length == 8));
        let filled = [&good[..], &raw(99, length, &[0; 8])].concat();
        assert_eq!(status(&filled, Two), expected((9..=16).contains(&length)));
        let first = [&raw(99, length, &[0; 8]), &good[..]].concat();
        assert_eq!(status(&first, Two), expected((9..=16).contains(&length)));
    }
    // CMD_TYPE has a width of 2.
    for length in 0..=16 {
        let mut other = good.clone();
        other[4] = length;
        let expected = if length == 10 {
            Status::Ok
        } else {
            Status::Einval
        };
        assert_eq!(status(&other, Two), expected);
    }
}

#[test]
fn lengths_7_8_and_9_in_cmd_info() {
    let info = &worked_example()[24..];
    for length in 0..=17 {
        let expected = |right: bool| if right { Status::Ok } else { Status::Einval };
        for kind in [99, 24] {
            let nest = [info, &raw(kind, length, &[])].concat();
            assert_eq!(status(&command(7, &nest), Two), expected(length == 8));
            let nest = [info, &raw(kind, length, &[0; 8])].concat();
            let right = (9..=16).contains(&length);
            assert_eq!(status(&command(7, &nest), Two), expected(right));
            // An unknown command comes first.
            assert_eq!(status(&command(6, &nest), Two), Status::Enotsup);
        }
    }
    // A table that is not there comes after the nest.
    let other_table = raw(1, 10, &[40, 0, 0, 0, 0, 0, 0, 0]);
    assert_eq!(status(&command(3, &other_table), Two), Status::Enotsup);
    let nest = [&other_table[..], &raw(99, 7, &[])].concat();
    assert_eq!(status(&command(3, &nest), Two), Status::Einval);
    let nest = [&other_table[..], &raw(99, 8, &[])].concat();
    assert_eq!(status(&command(3, &nest), Two), Status::Enotsup);
    // An empty nest is well formed, and short of all its fields.
    assert_eq!(command(3, &[])[20], 8);
    assert_eq!(status(&command(3, &[]), Two), Status::Einval);
    assert_eq!(status(&command(6, &[]), Two), Status::Enotsup);
    let mut under = command(6, &[]);
    under[20] = 7;
    assert_eq!(status(&under, Two), Status::Einval);
}

#[test]
fn lengths_7_8_and_9_among_members() {
    let id = 0x3005_0000u32.to_le_bytes();
    let member = |length| raw(1, length, &[1, 0, 5, 0, 0, 0, 0, 0]);
    let add = |code: u8, count: u8, list: &[u8]| {
        command(code, &tlvs(&[(10, &id), (12, &[count, 0]), (13, list)]))
    };
    for length in 0..=24 {
        let expected = if length == 12 {
            Status::Ok
        } else {
            Status::Einval
        };
        assert_eq!(status(&add(7, 1, &member(length)), Two), expected);
        let more = [&member(12)[..], &raw(2, length, &[])].concat();
        for count in [1, 2] {
            assert_eq!(status(&add(7, count, &more), Two), Status::Einval);
        }
    }
    // The key comes after it.
    assert_eq!(status(&add(8, 1, &member(12)), Two), Status::Enoent);
    assert_eq!(status(&add(8, 1, &member(7)), Two), Status::Einval);
    // Where members are not used their list is not walked.
    let port = [&worked_example()[24..], &tlvs(&[(13, &member(0))])].concat();
    assert_eq!(status(&command(7, &port), Two), Status::Ok);
}

#[test]
fn in_version_1_a_length_under_8_is_a_value() {
    let old = older(&worked_example());
    for length in 0..=8 {
        let filled = usize::from(length).next_multiple_of(8);
        let more = [&old[..], &raw(99, length, &[0; 8][..filled])].concat();
        assert_eq!(status(&more, One), Status::Ok);
        let alone = [&old[..], &raw(99, length, &[])].concat();
        let expected = match length {
            0 => Status::Ok,
            _ => Status::Einval,
        };
        assert_eq!(status(&alone, One), expected);
    }
}

#[test]
fn generated_payloads_do_the_same_in_the_other_version() {
    let (mut same, mut under) = (0, 0);
    for seed in 0..4 {
        let (mut new, mut old) = (Tables::empty(4), Tables::empty(4));
        for text in crate::generate::payloads(seed, 1_500).lines() {
            let Some(payload) = text.strip_prefix("payload ") else {
                continue;
            };
            let payload = crate::console::bytes(payload).unwrap();
            // Read as one of version 1, it has one of version 2.
            assert_eq!(status(&payload, One), status(&newer(&payload), Two));
            let counted = older(&payload);
            if newer(&counted) != payload {
                under += 1;
                continue;
            }
            let done = new.execute(&payload, Two);
            assert_eq!(old.execute(&counted, One), done);
            same += 1;
        }
        assert_eq!(new, old);
    }
    println!("the same {same}, with a length under 8 {under}");
    assert!(same > 1_000 && under > 100);
}
