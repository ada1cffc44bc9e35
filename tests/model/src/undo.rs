//! Request 2026-06: the list of payloads that leads from the end of a trail back to the tables after its first n lines.

pub mod check;
pub mod misread;
pub mod post;
pub mod program;
pub mod wrong;

use crate::journal::{replay, Refused, HEADER, LINE};
use crate::tables::{field, id_low, Flow, Group, Match, Tables, CMD_INFO, CMD_TYPE};
use crate::tlv::Version;
use misread::{misread, Label as L};
use std::collections::BTreeMap;
use std::fmt;

/// Why there is no list: what refuses the trail, 15 or 16.
#[derive(Clone, Copy, Debug, PartialEq, Eq)]
pub enum Refusal {
    Trail(Refused),
    Count,
    Room,
}

impl Refusal {
    pub fn number(self) -> u64 {
        match self {
            Refusal::Trail(refused) => refused.fault as u64,
            Refusal::Count if misread(L::UndoCountIs14) => 14,
            Refusal::Room if misread(L::UndoRoomIs6) => 6,
            Refusal::Count => 15,
            Refusal::Room => 16,
        }
    }

    /// 15 and 16 have no line.
    pub fn line(self) -> Option<u64> {
        match self {
            Refusal::Trail(_) if misread(L::UndoFaultsAreLine0) => Some(0),
            Refusal::Trail(refused) => Some(refused.line),
            Refusal::Count if misread(L::UndoCountHasLine0) => Some(0),
            Refusal::Room if misread(L::UndoRoomHasLine0) => Some(0),
            Refusal::Count | Refusal::Room => None,
        }
    }
}

impl fmt::Display for Refusal {
    fn fmt(&self, out: &mut fmt::Formatter) -> fmt::Result {
        match self.line() {
            Some(line) => write!(out, "refused {} line {line}", self.number()),
            None => write!(out, "refused {}", self.number()),
        }
    }
}

/// Writes the list to the start of the room and gives its length. A refusal writes nothing.
pub fn undo(trail: &[u8], n: u64, room: &mut [u8]) -> Result<usize, Refusal> {
    wrong::early(trail, n, room)?;
    let payloads = payloads(trail, n).inspect_err(|_| wrong::refused(room))?;
    let list = list(&payloads);
    if room.len() < wrong::needed(room.len(), &payloads, list.len()) {
        wrong::too_short(&payloads, room);
        return Err(Refusal::Room);
    }
    // The room is shorter only where a misreading takes it.
    let length = list.len().min(room.len());
    room[..length].copy_from_slice(&list[..length]);
    Ok(wrong::result(&payloads, room, length))
}

/// The payloads of the list. Faults of the trail come before n, wherever they stand.
pub fn payloads(trail: &[u8], n: u64) -> Result<Vec<Vec<u8>>, Refusal> {
    let trail = &wrong::version(trail)[..];
    let trail = wrong::looked_at(trail, n);
    let now = replay(trail).map_err(Refusal::Trail)?;
    let n = wrong::number(trail, now.lines, n);
    if n > now.lines || wrong::too_old(trail) {
        return Err(Refusal::Count);
    }
    let then = replay(first_lines(trail, n)).map_err(Refusal::Trail)?;
    let mut steps = steps(&entries(&then.tables), &entries(&now.tables));
    steps.sort_by_key(|step| (step.action, step.key));
    wrong::steps(&mut steps, trail, n, &then.tables, &now.tables);
    let mut payloads: Vec<Vec<u8>> = steps.iter().map(payload).collect();
    wrong::payloads(&mut payloads, trail);
    Ok(payloads)
}

/// The header and the first n lines, or as many as there are.
pub fn first_lines(trail: &[u8], n: u64) -> &[u8] {
    let (mut at, mut left) = (HEADER.min(trail.len()), n);
    while let (1.., Some(line)) = (left, line_at(trail, at)) {
        at += line.len();
        left -= 1;
    }
    &trail[..at]
}

/// The line that begins at a place, if it is whole.
pub fn line_at(trail: &[u8], at: usize) -> Option<&[u8]> {
    let rest = trail.get(at..)?;
    let length = u16::from_le_bytes([*rest.get(2)?, *rest.get(3)?]);
    rest.get(..LINE + usize::from(length))
}

/// A key. Flows come before groups, and each rise.
#[derive(Clone, Copy, Debug, PartialEq, Eq, PartialOrd, Ord)]
pub enum Key {
    Flow(u64),
    Group(u32),
}

/// What is done, in the order in which it is done.
#[derive(Clone, Copy, Debug, PartialEq, Eq, PartialOrd, Ord)]
pub enum Action {
    Del,
    Mod,
    Add,
}

/// The fields of an entry, key and all, in rising type: two entries differ where these do.
pub type Fields = Vec<(u32, Vec<u8>)>;

pub type Entries = BTreeMap<Key, Fields>;

#[derive(Clone, Debug)]
pub struct Step {
    pub action: Action,
    pub key: Key,
    pub fields: Fields,
}

/// Del of what is only now there, mod of what differs, add of what is only then there.
fn steps(then: &Entries, now: &Entries) -> Vec<Step> {
    let step = |action, key: &Key, fields: &Fields| Step {
        action,
        key: *key,
        fields: fields.clone(),
    };
    let dels = now
        .iter()
        .filter(|(key, _)| !then.contains_key(key))
        .map(|(key, fields)| step(Action::Del, key, fields));
    let puts = then.iter().filter_map(|(key, fields)| match now.get(key) {
        None => Some(step(Action::Add, key, fields)),
        Some(other) if other != fields => Some(step(Action::Mod, key, fields)),
        Some(_) => None,
    });
    dels.chain(puts).collect()
}

pub fn entries(tables: &Tables) -> Entries {
    let flows = tables
        .flows
        .iter()
        .map(|(cookie, flow)| (Key::Flow(*cookie), flow_fields(*cookie, flow)));
    let groups = tables
        .groups
        .iter()
        .map(|(id, group)| (Key::Group(*id), group_fields(*id, group)));
    flows.chain(groups).collect()
}

/// All fields of a flow, both times also where they are 0.
fn flow_fields(cookie: u64, flow: &Flow) -> Fields {
    let mut fields = vec![
        (field::TBL, flow.table().to_le_bytes().to_vec()),
        (field::PRIORITY, flow.priority.to_le_bytes().to_vec()),
        (field::HARDTIME, flow.hard_time.to_le_bytes().to_vec()),
        (field::IDLETIME, flow.idle_time.to_le_bytes().to_vec()),
        (field::COOKIE, cookie.to_le_bytes().to_vec()),
        (field::GOTO_TBL, flow.goto.to_le_bytes().to_vec()),
    ];
    match flow.matching {
        Match::Ingress { port, mask } => {
            fields.push((field::IN_PPORT, port.to_le_bytes().to_vec()));
            fields.push((field::IN_PPORT_MASK, mask.to_le_bytes().to_vec()));
        }
        Match::Vlan {
            port,
            vlan,
            new_vlan,
        } => {
            fields.push((field::IN_PPORT, port.to_le_bytes().to_vec()));
            fields.push((field::VLAN_ID, vlan.to_be_bytes().to_vec()));
            fields.extend(new_vlan.map(|new| (field::NEW_VLAN_ID, new.to_be_bytes().to_vec())));
        }
        Match::Termination {
            port,
            ethertype,
            mac,
            vlan,
        } => {
            fields.push((field::IN_PPORT, port.to_le_bytes().to_vec()));
            fields.push((field::VLAN_ID, vlan.to_be_bytes().to_vec()));
            fields.push((field::ETHERTYPE, ethertype.bytes().to_vec()));
            fields.push((field::DST_MAC, mac.to_vec()));
        }
        Match::Route {
            ethertype,
            ref prefix,
            group,
        } => {
            let ([address, mask], _) = ethertype.pair();
            fields.push((field::ETHERTYPE, ethertype.bytes().to_vec()));
            fields.push((address, prefix.address.clone()));
            fields.push((mask, prefix.mask.clone()));
            fields.extend(group.map(|id| (field::GROUP_ID, id.to_le_bytes().to_vec())));
        }
        Match::Bridge { vlan, mac, group } => {
            fields.push((field::VLAN_ID, vlan.to_be_bytes().to_vec()));
            fields.extend(mac.map(|mac| (field::DST_MAC, mac.to_vec())));
            fields.extend(group.map(|id| (field::GROUP_ID, id.to_le_bytes().to_vec())));
        }
    }
    fields.sort_by_key(|(kind, _)| *kind);
    fields
}

/// All fields of a group; a port group's OUT_PPORT is the low bits of its ID.
fn group_fields(id: u32, group: &Group) -> Fields {
    let mut fields = vec![(field::GROUP_ID, id.to_le_bytes().to_vec())];
    match group {
        Group::Port { pop, .. } => {
            let port = u32::from(id_low(id));
            fields.push((field::OUT_PPORT, port.to_le_bytes().to_vec()));
            fields.push((field::POP_VLAN, vec![*pop]));
        }
        Group::Route {
            lower,
            vlan,
            source,
            destination,
        } => {
            fields.push((field::GROUP_ID_LOWER, lower.to_le_bytes().to_vec()));
            fields.push((field::VLAN_ID, vlan.to_be_bytes().to_vec()));
            fields.push((field::SRC_MAC, source.to_vec()));
            fields.push((field::DST_MAC, destination.to_vec()));
        }
        Group::List { members } => {
            let count = members.len() as u16;
            let ids: Fields = (1..)
                .zip(members)
                .map(|(k, id)| (k, id.to_le_bytes().to_vec()))
                .collect();
            fields.push((field::GROUP_COUNT, count.to_le_bytes().to_vec()));
            fields.push((field::GROUP_IDS, region(&ids)));
        }
    }
    fields.sort_by_key(|(kind, _)| *kind);
    fields
}

/// The command of a step. A del has only its key.
fn payload(step: &Step) -> Vec<u8> {
    let mut fields = step.fields.clone();
    let first: u16 = match step.key {
        Key::Flow(_) => 3,
        Key::Group(_) => 7,
    };
    let code = match step.action {
        Action::Add => first,
        Action::Mod => first + 1,
        Action::Del => first + 2,
    };
    if step.action == Action::Del {
        let key = match step.key {
            Key::Flow(_) => field::COOKIE,
            Key::Group(_) => field::GROUP_ID,
        };
        fields.retain(|(kind, _)| *kind == key);
    }
    wrong::fields(step, &mut fields);
    let info = region(&fields);
    let mut top = vec![(CMD_TYPE, code.to_le_bytes().to_vec()), (CMD_INFO, info)];
    wrong::top(step, &mut top);
    region(&top)
}

/// TLVs in a row, with zero pads and fill. Lengths count as the device has it, whatever the version of the trail.
fn region(fields: &Fields) -> Vec<u8> {
    let mut out = Vec::new();
    for (kind, value) in fields {
        let start = out.len();
        out.extend(kind.to_le_bytes());
        out.extend(((Version::DEVICE.counted() + value.len()) as u16).to_le_bytes());
        out.extend([0, 0]);
        out.extend(value);
        out.resize(out.len().next_multiple_of(8), 0);
        wrong::tlv(&mut out, start, value.len());
    }
    out
}

/// Each payload after its length.
pub fn list(payloads: &[Vec<u8>]) -> Vec<u8> {
    if let Some(other) = wrong::list(payloads) {
        return other;
    }
    let mut out = Vec::new();
    for payload in payloads {
        out.extend((payload.len() as u16).to_le_bytes());
        out.extend(payload);
    }
    out
}
