//! Request 2026-05. In tests the order is checked after every command and its search at every frame (`order::is_checked`), so what is run
//! here, and elsewhere, holds the order against the plain way.

use super::coverage::meet;
use super::*;
use crate::frame::copies;
use crate::generate::Rng;
use crate::met;
use crate::order;
use crate::registers::Registers;
use crate::tables::{Status, Tables};
use std::collections::BTreeMap;

const VLAN: u16 = 7;
const FIRST: [u8; 6] = [2, 0, 0, 0, 0, 1];
const ROUTER: [u8; 6] = [2, 0x99, 0, 0, 0, 1];

fn id(port: u16) -> u32 {
    u32::from(VLAN) << 16 | u32::from(port)
}

/// As a mod what is written as an add.
fn as_mod(mut payload: Vec<u8>) -> Vec<u8> {
    payload[8] = 4;
    payload
}

fn del(cookie: u64) -> Vec<u8> {
    payload(5, &[(5, &cookie.to_le_bytes())])
}

fn registers() -> Registers {
    let mut registers = Registers::fresh(4, 0);
    registers.links = 0x1e;
    registers.enable.value = 0x1e;
    registers
}

/// A device whose frames come in on port 1, with groups and neighbours at 0, 2, 3 and 4.
fn tables() -> Tables {
    let mut tables = Tables::empty(4);
    for port in [0, 2, 3, 4] {
        let index = 2 << 28 | u32::from(port);
        let to = [2, 0, 0, 0, 1, port as u8];
        for payload in [
            port_group(id(port), 0),
            route_group(7, index, id(port), VLAN, ROUTER, to),
        ] {
            assert_eq!(tables.obey(&payload), Status::Ok);
        }
    }
    tables
}

fn tagged(mac: [u8; 6], rest: &[u8]) -> Vec<u8> {
    let head = [&mac[..], &FIRST, &[0x81, 0], &VLAN.to_be_bytes()].concat();
    [&head, rest].concat()
}

/// To 10.1.2.N.
fn routed(last: u8) -> Vec<u8> {
    let behind = [&[0x08, 0x00][..], &[0; 16], &[10, 1, 2, last]].concat();
    tagged(ROUTER, &behind)
}

fn out(tables: &Tables, frame: &[u8]) -> Option<u16> {
    let copies = copies(&registers(), tables, 1, frame);
    copies.first().map(|copy| copy.port)
}

#[test]
fn a_mod_moves_a_flow_and_a_del_frees_its_place() {
    let mut tables = tables();
    let one =
        |cookie, priority, port| flow_50(cookie, priority, VLAN, Some(FIRST), Some(id(port)), 60);
    let frame = tagged(FIRST, &[8, 6]);
    for (payload, port) in [
        (flow_10(1, 0, 1, VLAN, None, 20), None),
        (one(5, 5, 2), Some(2)),
        (one(4, 5, 3), Some(3)),
        (one(6, 6, 4), Some(4)),
        (as_mod(one(6, 5, 4)), Some(3)),
        (as_mod(one(5, 9, 2)), Some(2)),
        // To another table, and back.
        (as_mod(flow_0(5, 9, 2, 0xffff_ffff, 0)), Some(3)),
        (as_mod(one(5, 5, 2)), Some(3)),
        (del(4), Some(2)),
        (del(5), Some(4)),
        (del(6), None),
    ] {
        assert_eq!(tables.obey(&payload), Status::Ok);
        assert_eq!(out(&tables, &frame), port);
    }
}

#[test]
fn a_mod_of_the_prefix_moves_a_route() {
    let mut tables = tables();
    let route = |cookie, priority, ones: u32, port: u16| {
        let mask = (u32::MAX << (32 - ones)).to_be_bytes();
        let prefix = (vec![10, 1, 2, 3], mask.to_vec());
        flow_30(
            cookie,
            priority,
            prefix,
            Some(2 << 28 | u32::from(port)),
            60,
        )
    };
    for (payload, port) in [
        (flow_10(1, 0, 1, VLAN, None, 20), None),
        (flow_20(2, 1, 0x0800, ROUTER, VLAN), None),
        (route(5, 9, 8, 2), Some(2)),
        (route(6, 0, 16, 3), Some(3)),
        (as_mod(route(5, 0, 17, 2)), Some(2)),
        (as_mod(route(5, 9, 15, 2)), Some(3)),
        (as_mod(route(5, 0, 16, 2)), Some(2)),
        (as_mod(route(6, 1, 16, 3)), Some(3)),
        (del(6), Some(2)),
        (del(5), None),
    ] {
        assert_eq!(tables.obey(&payload), Status::Ok);
        assert_eq!(out(&tables, &routed(3)), port);
    }
}

/// An add of one of a few flows that meet the same frames.
fn any_flow(rng: &mut Rng, cookie: u64) -> Vec<u8> {
    let priority = rng.range(0, 3) as u32;
    let port = rng.range(2, 4) as u16;
    match rng.range(0, 9) {
        0 => {
            let goto = if rng.range(0, 3) == 0 { 0 } else { 10 };
            let mask = [0, 1, 3, u32::MAX][rng.range(0, 3) as usize];
            flow_0(cookie, priority, rng.range(0, 2) as u32, mask, goto)
        }
        1 => flow_10(cookie, priority, 1, VLAN, None, 20),
        2 => {
            let new = rng.range(6, 8) as u16;
            flow_10(cookie, priority, 1, 0, Some(new), 20)
        }
        3 => flow_20(cookie, rng.range(1, 2) as u32, 0x0800, ROUTER, VLAN),
        4..=6 => {
            let ones = [0, 8, 23, 24, 31, 32][rng.range(0, 5) as usize];
            let mask = u32::MAX.checked_shl(32 - ones).unwrap_or(0).to_be_bytes();
            let address = vec![10, 1, 2, rng.range(2, 4) as u8];
            let group = Some(2 << 28 | u32::from(port));
            flow_30(cookie, priority, (address, mask.to_vec()), group, 60)
        }
        _ => {
            let mac = [2, 0, 0, 0, 0, rng.range(1, 2) as u8];
            flow_50(cookie, priority, VLAN, Some(mac), Some(id(port)), 60)
        }
    }
}

/// Commands of so many cookies, a frame behind each; gives the statuses and the tables in which the cookie decided.
fn run(seed: u64, cookies: u64, commands: u64) -> [BTreeMap<u16, u64>; 2] {
    let mut rng = Rng::new(seed);
    let (mut tables, mut statuses) = (tables(), BTreeMap::new());
    order::ties();
    for _ in 0..commands {
        let cookie = rng.range(1, cookies);
        let payload = match rng.range(0, 9) {
            0..=4 => any_flow(&mut rng, cookie),
            5..=7 => as_mod(any_flow(&mut rng, cookie)),
            _ => del(cookie),
        };
        *statuses.entry(tables.obey(&payload).code()).or_default() += 1;
        let frame = match rng.range(0, 2) {
            0 => routed(rng.range(2, 4) as u8),
            1 => tagged([2, 0, 0, 0, 0, rng.range(1, 2) as u8], &[8, 6]),
            _ => [&FIRST[..], &FIRST, &[8, 6]].concat(),
        };
        out(&tables, &frame);
    }
    let mut ties = BTreeMap::new();
    for table in order::ties() {
        *ties.entry(table).or_default() += 1;
    }
    [statuses, ties]
}

#[test]
fn random_commands_keep_few_flows_in_order() {
    let mut all = BTreeMap::new();
    for seed in 0..20 {
        let [statuses, ties] = run(seed, 20, 1_000);
        assert!([0, 2, 17].iter().all(|code| statuses.contains_key(code)));
        all.extend(ties);
    }
    assert!([0, 10, 20, 30, 50]
        .iter()
        .all(|table| all.contains_key(table)));
}

#[test]
fn random_commands_keep_256_flows_in_order() {
    let mut full = 0;
    for seed in 0..2 {
        let [statuses, _] = run(seed, 400, 3_000);
        full += statuses.get(&12).copied().unwrap_or_default();
    }
    assert!(full > 0, "the tables are never full");
}

#[test]
fn scripts_meet_what_moves() {
    meet([6, 14, 22, 30], met::counts, &met::ALL);
}
