//! Trails of an evening and the night after it, and what is asked of them: to lead back to their first lines.

use super::commands::*;
use super::trail::{cut, spoil_header, spoil_lines};
use super::Rng;
use crate::journal;
use crate::tables::{field, id_type, id_vlan, Flow, Group, Match, Prefix, Status, Tables};
use crate::tlv::Version;
use crate::undo::check::{rooms, LONGEST_LIST};
use crate::undo::undo;
use std::collections::BTreeMap;

/// A trail, where its evening ends, and how many lines it was made of.
#[derive(Clone, Debug)]
pub struct Evening {
    pub trail: Vec<u8>,
    pub evening: u64,
    pub lines: u64,
    between: [u64; 2],
    above: u64,
}

impl Evening {
    /// The numbers that are asked for: none, all, the end of the evening, some between, and two above.
    pub fn numbers(&self) -> Vec<u64> {
        let [few, many] = self.between;
        let mut numbers = vec![0, self.evening, few, many, self.lines];
        numbers.sort();
        numbers.dedup();
        numbers.push(self.lines + 1);
        numbers.push(self.above);
        numbers
    }
}

/// One question: n, and how long the room is.
#[derive(Clone, Debug)]
pub struct Ask {
    pub n: u64,
    pub room: usize,
    pub trail: Vec<u8>,
}

/// The questions for a seed: each number with the rooms at its list's edge.
pub fn asks(seed: u64) -> Vec<Ask> {
    let evening = evening(seed);
    let trail = &evening.trail;
    let mut whole = vec![0; LONGEST_LIST];
    let mut out = Vec::new();
    for n in evening.numbers() {
        let length = undo(trail, n, &mut whole).unwrap_or(40);
        out.extend(rooms(length).into_iter().map(|room| Ask {
            n,
            room,
            trail: trail.clone(),
        }));
    }
    out
}

pub fn evening(seed: u64) -> Evening {
    let mut rng = Rng::new(seed ^ 0x6576_656e_696e_6773).skipping(seed % 16 == 9);
    let ports = some_ports(&mut rng) as u8;
    // Half of them are of the device's own.
    let own = Version::DEVICE;
    let version = rng.pick(&[Version::One, Version::Two, own, own]);
    let mut maker = Maker {
        rng: rng.of_version(version),
        version,
        tables: Tables::empty(u32::from(ports)),
        lines: Vec::new(),
    };
    let evening = maker.evening_and_night(seed % 16);
    let count = maker.count();
    let trail = match seed % 8 {
        7 => maker.spoiled(ports),
        _ => [
            journal::header_of(version as u16, ports),
            maker.lines.concat(),
        ]
        .concat(),
    };
    let rng = &mut maker.rng;
    let between = [rng.range(0, count), rng.range(0, count)];
    let high = [1 << 16, 1 << 32, 1 << 63].map(|bit| bit | between[0]);
    Evening {
        trail,
        evening,
        lines: count,
        between,
        above: rng.pick(&[count + 2, high[0], high[1], high[2], u64::MAX]),
    }
}

struct Maker {
    rng: Rng,
    version: Version,
    tables: Tables,
    lines: Vec<Vec<u8>>,
}

impl Maker {
    /// Tells where the evening ends.
    fn evening_and_night(&mut self, kind: u64) -> u64 {
        match kind {
            0 | 1 | 8 => self.mixed(12, 12),
            2 => self.full_on_both_sides(),
            3 | 6 | 11 => self.aimed(false),
            4 | 12 | 14 => self.aimed(true),
            5 | 9 | 13 => self.mixed(120, 120),
            10 => self.full_on_one_side(),
            _ => self.mixed(8, 8),
        }
    }

    /// The trail cut, with another header, or with a line that disagrees.
    fn spoiled(&mut self, ports: u8) -> Vec<u8> {
        let mut header = journal::header_of(self.version as u16, ports);
        let rng = &mut self.rng;
        match rng.range(0, 9) {
            0..=2 => return cut(rng, &header, &self.lines),
            3..=5 => spoil_header(rng, &mut header),
            6 => header[3] = rng.pick(&[1, 2, 3]),
            _ => spoil_lines(rng, &mut self.lines, &self.tables, self.version),
        }
        [header, self.lines.concat()].concat()
    }

    fn carry_out(&mut self, payload: &[u8]) {
        self.carry_out_as(payload, self.version);
    }

    /// In a meaning of lengths that need not be the trail's, which decides the status.
    fn carry_out_as(&mut self, payload: &[u8], meaning: Version) {
        let slot = self.lines.len() as u16 % 1_024;
        let payload = written(payload, meaning);
        let status = self.tables.execute(&payload, self.version);
        self.lines
            .push(journal::line(status.stamp(), slot, &payload));
    }

    fn count(&self) -> u64 {
        self.lines.len() as u64
    }

    fn del_flow(&mut self, cookie: u64) {
        let fields = vec![f(field::COOKIE, cookie.to_le_bytes())];
        self.carry_out(&Command { code: 5, fields }.payload());
    }

    fn del_group(&mut self, id: u32) {
        let fields = vec![f(field::GROUP_ID, id.to_le_bytes())];
        self.carry_out(&Command { code: 9, fields }.payload());
    }

    /// Any commands, and slots without a payload among them.
    fn any(&mut self, most: u64) {
        let others = if self.rng.chance(3) { 100 } else { 3 };
        for _ in 0..self.rng.range(0, most) {
            if self.rng.chance(8) {
                let fault = self
                    .rng
                    .pick(&[Status::Enxio, Status::Emsgsize, Status::Einval]);
                self.lines.push(journal::line(fault.stamp(), 7, &[]));
            } else {
                let payload = any_payload(&mut self.rng, &self.tables, 85);
                let meaning = match self.rng.chance(others) {
                    true => self.version.other(),
                    false => self.version,
                };
                self.carry_out_as(&payload, meaning);
            }
        }
    }

    fn mixed(&mut self, evening: u64, night: u64) -> u64 {
        self.any(evening);
        let count = self.count();
        self.any(night);
        count
    }

    /// Fills both tables up; cookies and group IDs are those of one of several stocks.
    fn fill(&mut self, stock: u64) {
        let mut cookies: Vec<u64> = (0..256)
            .map(|at| (stock + 2 * at).wrapping_mul(0x0123_4567_89ab_cdef))
            .collect();
        self.rng.shuffle(&mut cookies);
        for cookie in cookies {
            let table = self.table();
            let payload = flow(&mut self.rng, &self.tables, 3, cookie, table).payload();
            self.carry_out(&payload);
        }
        let first = 200 * (stock as u16 + 1);
        for at in first..first + 130 {
            let id = match at % 8 {
                0 => group_id(0, at, self.rng.range(0, self.tables.ports.into()) as u16),
                1 | 2 if self.version.routes() => route_id(u32::from(at) << 12 | 5),
                _ => group_id(self.rng.pick(&[3, 4]), self.rng.pick(&VLANS), at),
            };
            // The last two find no room.
            let payload = group(&mut self.rng, &self.tables, 7, id).payload();
            self.carry_out(&payload);
        }
    }

    /// A table that the trail's version has.
    fn table(&mut self) -> u16 {
        match self.version.routes() {
            true => self.rng.pick(&[0, 10, 20, 30, 30, 50]),
            false => self.rng.pick(&[0, 10, 50]),
        }
    }

    /// Deletes entries: each with this chance.
    fn clear(&mut self, percent: u64) {
        for cookie in self.tables.flows.keys().copied().collect::<Vec<_>>() {
            if self.rng.chance(percent) {
                self.del_flow(cookie);
            }
        }
        for id in self.tables.groups.keys().copied().collect::<Vec<_>>() {
            if self.rng.chance(percent) {
                self.del_group(id);
            }
        }
    }

    fn full_on_both_sides(&mut self) -> u64 {
        self.fill(0);
        let count = self.count();
        let percent = self.rng.pick(&[100, 100, 50, 3]);
        self.clear(percent);
        for _ in 0..self.rng.range(0, 20) {
            self.change();
        }
        self.fill(1);
        count
    }

    fn full_on_one_side(&mut self) -> u64 {
        let first = self.rng.chance(50);
        if first {
            self.fill(0);
        }
        let count = self.count();
        let percent = self.rng.pick(&[100, 50]);
        self.clear(percent);
        if !first {
            self.fill(1);
        }
        count
    }

    /// Entries of every kind, then one thing changed at a time, perhaps there and back.
    fn aimed(&mut self, back: bool) -> u64 {
        for _ in 0..self.rng.range(5, 40) {
            let command = command(&mut self.rng, &self.tables);
            self.carry_out(&command.payload());
        }
        let count = self.count();
        for _ in 0..self.rng.range(1, 30) {
            let before = self.tables.clone();
            self.change();
            if back && self.rng.chance(70) {
                self.back(&before);
            }
        }
        count
    }

    /// Changes one thing of one entry.
    fn change(&mut self) {
        let cookies: Vec<u64> = self.tables.flows.keys().copied().collect();
        let ids: Vec<u32> = self.tables.groups.keys().copied().collect();
        if !cookies.is_empty() && (ids.is_empty() || self.rng.chance(65)) {
            let cookie = self.rng.pick(&cookies);
            self.change_flow(cookie);
        } else if !ids.is_empty() {
            let id = self.rng.pick(&ids);
            self.change_group(id);
        }
    }

    fn change_flow(&mut self, cookie: u64) {
        let Some(mut changed) = self.tables.flows.get(&cookie).cloned() else {
            return;
        };
        let rng = &mut self.rng;
        match rng.range(0, 15) {
            0 => changed.hard_time = rng.pick(&[0, 1, 60, u32::MAX]),
            1 => changed.idle_time = rng.pick(&[0, 1, 60, u32::MAX]),
            2 => (changed.hard_time, changed.idle_time) = (changed.idle_time, changed.hard_time),
            3 => changed.priority = priority(rng),
            4 => {
                changed.goto = if changed.goto == 0 || changed.table() == 20 {
                    onward(&changed)
                } else {
                    0
                }
            }
            5 | 6 => {
                let table = self.table();
                let payload = flow(&mut self.rng, &self.tables, 4, cookie, table).payload();
                return self.carry_out(&payload);
            }
            7 => return self.del_flow(cookie),
            _ => change_match(rng, &mut changed.matching, self.tables.ports),
        }
        let payload = flow_command(rng, 4, cookie, &changed);
        self.carry_out(&payload);
    }

    fn change_group(&mut self, id: u32) {
        let Some(mut changed) = self.tables.groups.get(&id).cloned() else {
            return;
        };
        let rng = &mut self.rng;
        match &mut changed {
            _ if rng.chance(15) => return self.del_group(id),
            Group::Port { pop, .. } => *pop ^= 1,
            Group::Route {
                lower,
                vlan: id,
                source,
                destination,
            } => match rng.range(0, 5) {
                0 => *source = rng.pick(&[[0; 6], MACS[0], MACS[3], ROUTERS[0]]),
                1 => *destination = rng.pick(&[[0; 6], MACS[1], MACS[4], ROUTERS[0]]),
                2 => (*source, *destination) = (*destination, *source),
                3 => *lower ^= 1 << rng.range(0, 15),
                _ => {
                    *id = vlan(rng);
                    *lower = group_id(0, *id, *lower as u16);
                }
            },
            Group::List { members } => match rng.range(0, 3) {
                0 => members.reverse(),
                1 => rng.shuffle(members),
                2 if members.len() > 1 => drop(members.pop()),
                _ => *members = member_ids(rng, &self.tables, id_vlan(id)),
            },
        }
        let payload = group_command(8, id, &changed);
        self.carry_out(&payload);
    }

    /// Leads back by hand what one change has changed, in one of two ways.
    fn back(&mut self, before: &Tables) {
        let again = self.rng.chance(30);
        for (cookie, flow) in &before.flows {
            let now = self.tables.flows.get(cookie).cloned();
            if now.as_ref() != Some(flow) {
                if now.is_some() && again {
                    self.del_flow(*cookie);
                }
                let code = if self.tables.flows.contains_key(cookie) {
                    4
                } else {
                    3
                };
                let payload = flow_command(&mut self.rng, code, *cookie, flow);
                self.carry_out(&payload);
            }
        }
        for (id, group) in &before.groups {
            if self.tables.groups.get(id) != Some(group) {
                let code = if self.tables.groups.contains_key(id) {
                    8
                } else {
                    7
                };
                self.carry_out(&group_command(code, *id, group));
            }
        }
    }
}

fn onward(flow: &Flow) -> u16 {
    match flow.matching {
        Match::Ingress { .. } => 10,
        Match::Vlan { .. } => 20,
        Match::Termination { .. } => 30,
        Match::Route { .. } | Match::Bridge { .. } => 60,
    }
}

/// Another mask, another address, or only bits of it that its mask leaves out.
fn change_prefix(rng: &mut Rng, prefix: &mut Prefix) {
    let width = prefix.mask.len();
    let last = width - 1;
    match rng.range(0, 3) {
        0 => prefix.mask = mask(width, rng.range(0, 8 * width as u64) as u32),
        1 => prefix.address[last] ^= 1 << rng.range(0, 7),
        2 => prefix.address[1] ^= 1 << rng.range(0, 7),
        _ => {
            let at = rng.index(width - 1) + 1;
            prefix.address[at] ^= !prefix.mask[at] & rng.next() as u8;
        }
    }
}

/// Other optional fields, or one other value.
fn change_match(rng: &mut Rng, matching: &mut Match, ports: u32) {
    match matching {
        Match::Ingress { port, mask } => match rng.range(0, 3) {
            0 => *port = 0,
            1 => *port ^= 1 << rng.range(0, 31),
            2 => *mask = 0,
            _ => *mask ^= 1 << rng.range(0, 31),
        },
        Match::Vlan { port, .. } if rng.chance(30) => *port = rng.range(1, ports.into()) as u32,
        Match::Vlan {
            vlan: id, new_vlan, ..
        } => match new_vlan {
            Some(new) if rng.chance(60) => *new = rng.range(1, 4094) as u16,
            Some(_) => (*id, *new_vlan) = (vlan(rng), None),
            None if rng.chance(60) => (*id, *new_vlan) = (0, Some(vlan(rng))),
            None => *id = rng.range(1, 4094) as u16,
        },
        Match::Termination {
            port,
            ethertype,
            mac,
            vlan: id,
        } => match rng.range(0, 3) {
            0 => *port = rng.range(1, ports.into()) as u32,
            1 => *ethertype = ethertype.other(),
            2 => *mac = rng.pick(&[[0; 6], MACS[0], MACS[3], ROUTERS[0]]),
            _ => *id = rng.range(1, 4094) as u16,
        },
        Match::Route {
            ethertype,
            prefix: to,
            group,
        } => match rng.range(0, 5) {
            0 => (*ethertype, *to) = (ethertype.other(), prefix(rng, ethertype.other())),
            1 | 2 => {
                *group = match group {
                    Some(_) if rng.chance(50) => None,
                    _ => Some(route_id(route_index(rng))),
                }
            }
            _ => change_prefix(rng, to),
        },
        Match::Bridge { mac: Some(mac), .. } if rng.chance(30) => {
            // The first byte stays even or odd.
            *mac = match mac[0] % 2 {
                0 => rng.pick(&[[0; 6], MACS[0], MACS[1], MACS[2]]),
                _ => rng.pick(&MACS[3..]),
            };
        }
        Match::Bridge { vlan, mac, group } => {
            let kind = group.map(id_type);
            match (mac.is_some(), kind) {
                (true, None | Some(4)) if rng.chance(50) => *mac = None,
                (false, None | Some(4)) if rng.chance(50) => *mac = Some(MACS[3]),
                (_, Some(_)) => *group = None,
                (false, None) => *group = Some(group_id(4, *vlan, rng.next() as u16)),
                (true, None) => {
                    let odd = mac.is_some_and(|mac| mac[0] % 2 == 1);
                    let kind = if odd { rng.pick(&[3, 4]) } else { 0 };
                    *group = Some(group_id(kind, *vlan, rng.next() as u16));
                }
            }
        }
    }
}

/// A flow as a command: its fields in any order, times of 0 mostly left out.
fn flow_command(rng: &mut Rng, code: u16, cookie: u64, flow: &Flow) -> Vec<u8> {
    let mut fields = vec![
        f(field::TBL, flow.table().to_le_bytes()),
        f(field::PRIORITY, flow.priority.to_le_bytes()),
        f(field::COOKIE, cookie.to_le_bytes()),
        f(field::GOTO_TBL, flow.goto.to_le_bytes()),
    ];
    for (kind, time) in [
        (field::HARDTIME, flow.hard_time),
        (field::IDLETIME, flow.idle_time),
    ] {
        if time != 0 || rng.chance(30) {
            fields.push(f(kind, time.to_le_bytes()));
        }
    }
    match flow.matching {
        Match::Ingress { port, mask } => {
            fields.push(f(field::IN_PPORT, port.to_le_bytes()));
            fields.push(f(field::IN_PPORT_MASK, mask.to_le_bytes()));
        }
        Match::Vlan {
            port,
            vlan,
            new_vlan,
        } => {
            fields.push(f(field::IN_PPORT, port.to_le_bytes()));
            fields.push(f(field::VLAN_ID, vlan.to_be_bytes()));
            fields.extend(new_vlan.map(|new| f(field::NEW_VLAN_ID, new.to_be_bytes())));
        }
        Match::Termination {
            port,
            ethertype,
            mac,
            vlan,
        } => {
            fields.push(f(field::IN_PPORT, port.to_le_bytes()));
            fields.push(f(field::ETHERTYPE, ethertype.bytes()));
            fields.push(f(field::DST_MAC, mac));
            fields.push(f(field::VLAN_ID, vlan.to_be_bytes()));
        }
        Match::Route {
            ethertype,
            ref prefix,
            group,
        } => {
            fields.extend(prefix_fields(ethertype, prefix));
            fields.extend(group.map(|id| f(field::GROUP_ID, id.to_le_bytes())));
        }
        Match::Bridge { vlan, mac, group } => {
            fields.push(f(field::VLAN_ID, vlan.to_be_bytes()));
            fields.extend(mac.map(|mac| f(field::DST_MAC, mac)));
            fields.extend(group.map(|id| f(field::GROUP_ID, id.to_le_bytes())));
        }
    }
    rng.shuffle(&mut fields);
    Command { code, fields }.payload()
}

fn group_command(code: u16, id: u32, group: &Group) -> Vec<u8> {
    let mut fields = vec![f(field::GROUP_ID, id.to_le_bytes())];
    match group {
        Group::Port { port, pop } => {
            fields.push(f(field::POP_VLAN, [*pop]));
            fields.push(f(field::OUT_PPORT, u32::from(*port).to_le_bytes()));
        }
        Group::Route {
            lower,
            vlan,
            source,
            destination,
        } => {
            fields.push(f(field::SRC_MAC, source));
            fields.push(f(field::DST_MAC, destination));
            fields.push(f(field::VLAN_ID, vlan.to_be_bytes()));
            fields.push(f(field::GROUP_ID_LOWER, lower.to_le_bytes()));
        }
        Group::List { members } => {
            fields.push(f(field::GROUP_IDS, member_list(members)));
            fields.push(f(field::GROUP_COUNT, (members.len() as u16).to_le_bytes()));
        }
    }
    Command { code, fields }.payload()
}

/// What a way back meets, as far as the tables tell.
pub fn met(then: &Tables, now: &Tables) -> Vec<(&'static str, u64)> {
    let flows = pairs(&then.flows, &now.flows);
    let groups = pairs(&then.groups, &now.groups);
    let full = |sizes: [usize; 2], limit| sizes == [limit; 2];
    let flows_full = full([then.flows.len(), now.flows.len()], 256) && then.flows != now.flows;
    let groups_full = full([then.groups.len(), now.groups.len()], 128) && then.groups != now.groups;
    let same = (&then.flows, &then.groups) == (&now.flows, &now.groups);
    let whether = |told, is: bool| (told, u64::from(is));
    vec![
        whether("empty lists", same),
        whether(
            "full flows on both sides, all others",
            flows_full && flows.is_empty(),
        ),
        whether(
            "full flows on both sides, some kept",
            flows_full && !flows.is_empty(),
        ),
        whether(
            "full groups on both sides, all others",
            groups_full && groups.is_empty(),
        ),
        whether(
            "full groups on both sides, some kept",
            groups_full && !groups.is_empty(),
        ),
        (
            "flows in another table",
            count(&flows, |a, b| a.table() != b.table()),
        ),
        ("flows with other times alone", count(&flows, other_times)),
        (
            "flows with other optional fields",
            count(&flows, other_presence),
        ),
        ("flows that differ", count(&flows, |a, b| a != b)),
        (
            "routes that differ outside their masks alone",
            count(&flows, other_bits),
        ),
        (
            "flows of tables 20 and 30 that differ",
            count(&flows, |a, b| a != b && [20, 30].contains(&a.table())),
        ),
        (
            "groups of type 2 that differ",
            count(&groups, |a, b| a != b && matches!(a, Group::Route { .. })),
        ),
        ("groups with members reordered", count(&groups, reordered)),
        ("groups that differ", count(&groups, |a, b| a != b)),
    ]
}

fn other_times(a: &Flow, b: &Flow) -> bool {
    let (hard_time, idle_time) = (b.hard_time, b.idle_time);
    let with_times = Flow {
        hard_time,
        idle_time,
        ..a.clone()
    };
    a != b && with_times == *b
}

fn other_presence(a: &Flow, b: &Flow) -> bool {
    let present = |flow: &Flow| match flow.matching {
        Match::Ingress { .. } | Match::Termination { .. } => [false; 2],
        Match::Vlan { new_vlan, .. } => [new_vlan.is_some(), false],
        Match::Route { group, .. } => [false, group.is_some()],
        Match::Bridge { mac, group, .. } => [mac.is_some(), group.is_some()],
    };
    a.table() == b.table() && present(a) != present(b)
}

/// Whether two routes differ in bits of the address that the mask leaves out, and in nothing else.
fn other_bits(a: &Flow, b: &Flow) -> bool {
    let masked = |flow: &Flow| {
        let mut flow = flow.clone();
        if let Match::Route { prefix, .. } = &mut flow.matching {
            let bytes = prefix.address.iter_mut().zip(&prefix.mask);
            bytes.for_each(|(byte, mask)| *byte &= mask);
        }
        flow
    };
    a != b && masked(a) == masked(b)
}

fn reordered(a: &Group, b: &Group) -> bool {
    let sorted = |group: &Group| match group {
        Group::Port { .. } | Group::Route { .. } => Vec::new(),
        Group::List { members } => {
            let mut ids = members.clone();
            ids.sort();
            ids
        }
    };
    a != b && !sorted(a).is_empty() && sorted(a) == sorted(b)
}

fn pairs<'a, K: Ord, V>(then: &'a BTreeMap<K, V>, now: &'a BTreeMap<K, V>) -> Vec<(&'a V, &'a V)> {
    then.iter()
        .filter_map(|(key, a)| Some((a, now.get(key)?)))
        .collect()
}

fn count<V>(pairs: &[(&V, &V)], what: impl Fn(&V, &V) -> bool) -> u64 {
    pairs.iter().filter(|(a, b)| what(a, b)).count() as u64
}
