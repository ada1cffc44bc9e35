//! Commands as payloads: valid ones of every form, and these with one thing
//! changed. Their lengths count as a device has it; `written` has them as in
//! another version.

use super::Rng;
use crate::journal;
use crate::misread::{Form, FIELDS};
use crate::recount::{older, recount};
use crate::tables::{field, id_low, id_type, id_vlan, EtherType, Match, Prefix, Tables};
use crate::tables::{CMD_INFO, CMD_TYPE};
use crate::tlv::{Place, Version, HEAD};

#[derive(Clone, Debug, PartialEq, Eq)]
pub struct Field {
    pub kind: u32,
    pub value: Vec<u8>,
}

pub fn f(kind: u32, value: impl AsRef<[u8]>) -> Field {
    Field {
        kind,
        value: value.as_ref().to_vec(),
    }
}

/// TLVs in a row, with a given pad and fill.
pub fn encode(fields: &[Field], pad: u16, fill: u8) -> Vec<u8> {
    let mut out = Vec::new();
    for field in fields {
        out.extend(field.kind.to_le_bytes());
        out.extend(((HEAD + field.value.len()) as u16).to_le_bytes());
        out.extend(pad.to_le_bytes());
        out.extend(&field.value);
        out.resize(out.len().div_ceil(8) * 8, fill);
    }
    out
}

/// A payload as it stands in a trail of a version.
pub fn written(payload: &[u8], version: Version) -> Vec<u8> {
    match version {
        Version::One => older(payload),
        Version::Two | Version::Three => payload.to_vec(),
    }
}

/// A command before it is put into bytes, so that single fields can be spoiled.
#[derive(Clone, Debug, PartialEq, Eq)]
pub struct Command {
    pub code: u16,
    pub fields: Vec<Field>,
}

impl Command {
    pub fn info(&self) -> Vec<u8> {
        encode(&self.fields, 0, 0)
    }

    pub fn payload(&self) -> Vec<u8> {
        top(self.code, &self.info())
    }

    pub fn with(&self, change: impl FnOnce(&mut Vec<Field>)) -> Vec<u8> {
        let mut other = self.clone();
        change(&mut other.fields);
        other.payload()
    }

    pub fn set(&mut self, kind: u32, value: impl AsRef<[u8]>) {
        self.fields.retain(|field| field.kind != kind);
        self.fields.push(f(kind, value));
    }

    pub fn get(&self, kind: u32) -> Option<&[u8]> {
        let field = self.fields.iter().find(|field| field.kind == kind)?;
        Some(&field.value)
    }
}

pub fn top(code: u16, info: &[u8]) -> Vec<u8> {
    encode(&[f(CMD_TYPE, code.to_le_bytes()), f(CMD_INFO, info)], 0, 0)
}

pub fn group_id(kind: u32, vlan: u16, low: u16) -> u32 {
    kind << 28 | u32::from(vlan) << 16 | u32::from(low)
}

pub fn member_list(ids: &[u32]) -> Vec<u8> {
    let fields: Vec<Field> = (1..)
        .zip(ids)
        .map(|(k, id)| f(k, id.to_le_bytes()))
        .collect();
    encode(&fields, 0, 0)
}

pub const VLANS: [u16; 5] = [1, 2, 7, 100, 4094];
pub const MACS: [[u8; 6]; 6] = [
    [0x02, 0, 0, 0, 0, 1],
    [0x02, 0, 0, 0, 0, 2],
    [0x00, 0x11, 0x22, 0x33, 0x44, 0x55],
    [0x01, 0, 0x5e, 0, 0, 1],
    [0xff; 6],
    [0x33, 0x33, 0, 0, 0, 1],
];

/// The MACs that table 20 mostly has: a router's, one that is bridged too, and an odd one.
pub const ROUTERS: [[u8; 6]; 3] = [[0x02, 0x99, 0, 0, 0, 1], MACS[0], [0x01, 0, 0x5e, 0, 0, 1]];

/// Addresses that prefixes are made of: they have much in common, and stand at the edges.
pub const IPV4: [[u8; 4]; 10] = [
    [127, 0, 0, 1],
    [10, 1, 2, 3],
    [10, 1, 2, 4],
    [10, 1, 3, 3],
    [10, 1, 130, 3],
    [10, 2, 2, 3],
    [11, 1, 2, 3],
    [192, 168, 0, 1],
    [223, 255, 255, 255],
    [0, 0, 0, 0],
];
const NET: [u8; 8] = [0x20, 0x01, 0x0d, 0xb8, 0, 0, 0, 0];
const LINK: [u8; 8] = [0xfe, 0x80, 0, 0, 0, 0, 0, 0];

pub fn ipv4(rng: &mut Rng) -> Vec<u8> {
    match rng.chance(90) {
        true => rng.pick(&IPV4).to_vec(),
        false => (rng.next() as u32).to_be_bytes().to_vec(),
    }
}

pub fn ipv6(rng: &mut Rng) -> Vec<u8> {
    let mut out = rng.pick(&[NET, NET, NET, LINK, [0; 8]]).to_vec();
    out[5] = rng.pick(&[0, 0, 0, 1]);
    out[7] = rng.pick(&[0, 0, 1, 0x80]);
    out.extend(rng.pick(&[1u64, 2, 0x0200_00ff_fe00_0001, 0]).to_be_bytes());
    out
}

/// An address of a kind.
pub fn address(rng: &mut Rng, ethertype: EtherType) -> Vec<u8> {
    match ethertype {
        EtherType::Ipv4 => ipv4(rng),
        EtherType::Ipv6 => ipv6(rng),
    }
}

pub fn ethertype(rng: &mut Rng) -> EtherType {
    rng.pick(&[EtherType::Ipv4, EtherType::Ipv6])
}

/// A mask of so many ones.
pub fn mask(width: usize, ones: u32) -> Vec<u8> {
    let bits = |at: u32| match ones.saturating_sub(8 * at) {
        0 => 0,
        rest @ 1..=7 => 0xff << (8 - rest),
        _ => 0xff,
    };
    (0..width as u32).map(bits).collect()
}

/// A prefix that is right: often one that meets the others, at times with bits outside its mask.
pub fn prefix(rng: &mut Rng, ethertype: EtherType) -> Prefix {
    let (_, width) = ethertype.pair();
    let ones = match ethertype {
        EtherType::Ipv4 => rng.pick(&[0, 1, 8, 9, 15, 16, 17, 23, 24, 24, 25, 31, 32, 32]),
        EtherType::Ipv6 => rng.pick(&[0, 1, 8, 31, 32, 33, 48, 63, 64, 64, 65, 127, 128, 128]),
    };
    let (mut address, mask) = (address(rng, ethertype), mask(width, ones));
    if address[0] >= 224 && ethertype == EtherType::Ipv4 || address[0] == 0xff {
        address[0] &= 0x7f;
    }
    if rng.chance(70) {
        address
            .iter_mut()
            .zip(&mask)
            .for_each(|(byte, mask)| *byte &= mask);
    }
    Prefix { address, mask }
}

/// The fields of a prefix, without those of the other EtherType.
pub fn prefix_fields(ethertype: EtherType, prefix: &Prefix) -> Vec<Field> {
    let ([address, mask], _) = ethertype.pair();
    vec![
        f(field::ETHERTYPE, ethertype.bytes()),
        f(address, &prefix.address),
        f(mask, &prefix.mask),
    ]
}

pub fn route_id(index: u32) -> u32 {
    2 << 28 | index & 0x0fff_ffff
}

pub fn route_index(rng: &mut Rng) -> u32 {
    match rng.range(0, 9) {
        0 => rng.next() as u32,
        1 => rng.pick(&[0, 0x0fff_ffff, 0x0001_0000, 0x0fff_0000, 0x0800_0000]),
        _ => rng.range(0, 12) as u32,
    }
}

pub fn vlan(rng: &mut Rng) -> u16 {
    if rng.chance(95) {
        rng.pick(&VLANS)
    } else {
        rng.range(1, 4094) as u16
    }
}

pub fn cookie(rng: &mut Rng) -> u64 {
    match rng.range(0, 9) {
        0 => rng.next(),
        1 => rng.pick(&[0, 1 << 32, 1 << 63, u64::MAX, u64::MAX - 1]),
        _ => rng.range(0, 400),
    }
}

pub fn priority(rng: &mut Rng) -> u32 {
    // Few values, so that ties are common.
    rng.pick(&[0, 1, 1, 1, 2, 0x7fff_ffff, 0x8000_0000, u32::MAX])
}

/// A valid flow for one table.
pub fn flow(rng: &mut Rng, tables: &Tables, code: u16, cookie: u64, table: u16) -> Command {
    let ports = u64::from(tables.ports);
    let mut fields = vec![
        f(field::TBL, table.to_le_bytes()),
        f(field::PRIORITY, priority(rng).to_le_bytes()),
        f(field::COOKIE, cookie.to_le_bytes()),
    ];
    if rng.chance(30) {
        fields.push(f(field::HARDTIME, (rng.next() as u32).to_le_bytes()));
    }
    if rng.chance(30) {
        fields.push(f(field::IDLETIME, (rng.next() as u32).to_le_bytes()));
    }
    let port = rng.range(1, ports) as u32;
    let onward: u16 = match table {
        0 => {
            let port = if rng.chance(80) {
                port
            } else {
                rng.next() as u32
            };
            let mask = rng.pick(&[u32::MAX, 0, 1, 3, 7, 0x3f, 0xffff_fff8, 0x8000_0000]);
            fields.push(f(field::IN_PPORT, port.to_le_bytes()));
            fields.push(f(field::IN_PPORT_MASK, mask.to_le_bytes()));
            10
        }
        10 => {
            let vlan_id = if rng.chance(40) { 0 } else { vlan(rng) };
            fields.push(f(field::IN_PPORT, port.to_le_bytes()));
            fields.push(f(field::VLAN_ID, vlan_id.to_be_bytes()));
            if vlan_id == 0 {
                fields.push(f(field::NEW_VLAN_ID, vlan(rng).to_be_bytes()));
            }
            20
        }
        20 => {
            let mac = match rng.range(0, 9) {
                0 => rng.pick(&MACS),
                1 => rng.next().to_le_bytes()[..6].try_into().unwrap_or_default(),
                _ => rng.pick(&ROUTERS),
            };
            // Mostly a VLAN that a frame has after table 10.
            let ways: Vec<(u32, u16)> = tables
                .flows
                .values()
                .filter_map(|flow| match flow.matching {
                    Match::Vlan {
                        port,
                        vlan,
                        new_vlan,
                    } => Some((port, new_vlan.unwrap_or(vlan))),
                    _ => None,
                })
                .collect();
            let (port, vlan_id) = match ways.is_empty() || rng.chance(20) {
                true => (port, vlan(rng)),
                false => rng.pick(&ways),
            };
            fields.push(f(field::IN_PPORT, port.to_le_bytes()));
            fields.push(f(field::ETHERTYPE, ethertype(rng).bytes()));
            fields.push(f(field::DST_MAC, mac));
            fields.push(f(field::VLAN_ID, vlan_id.to_be_bytes()));
            fields.push(f(field::GOTO_TBL, [30, 0]));
            return Command { code, fields };
        }
        30 => {
            let ethertype = ethertype(rng);
            let prefix = prefix(rng, ethertype);
            fields.extend(prefix_fields(ethertype, &prefix));
            if rng.chance(90) {
                let live: Vec<u32> = tables
                    .groups
                    .keys()
                    .copied()
                    .filter(|id| id_type(*id) == 2)
                    .collect();
                let id = match !live.is_empty() && rng.chance(90) {
                    true => rng.pick(&live),
                    false => route_id(route_index(rng)),
                };
                fields.push(f(field::GROUP_ID, id.to_le_bytes()));
            }
            60
        }
        _ => {
            let vlan_id = vlan(rng);
            let mac = rng.chance(75).then(|| {
                if rng.chance(90) {
                    rng.pick(&MACS)
                } else {
                    rng.next().to_le_bytes()[..6].try_into().unwrap_or_default()
                }
            });
            let kinds: &[u32] = match mac {
                None => &[4],
                Some(mac) if mac[0] % 2 == 0 => &[0],
                Some(_) => &[3, 4],
            };
            fields.push(f(field::VLAN_ID, vlan_id.to_be_bytes()));
            if let Some(mac) = mac {
                fields.push(f(field::DST_MAC, mac));
            }
            if rng.chance(85) {
                let kind = rng.pick(kinds);
                // Mostly a group that is there, else one that is only named.
                let live: Vec<u32> = tables
                    .groups
                    .keys()
                    .copied()
                    .filter(|id| id_type(*id) == kind && id_vlan(*id) == vlan_id)
                    .collect();
                let id = if !live.is_empty() && rng.chance(85) {
                    rng.pick(&live)
                } else {
                    group_id(kind, vlan_id, rng.range(0, ports + 2) as u16)
                };
                fields.push(f(field::GROUP_ID, id.to_le_bytes()));
            }
            60
        }
    };
    let goto = if rng.chance(90) { onward } else { 0 };
    fields.push(f(field::GOTO_TBL, goto.to_le_bytes()));
    Command { code, fields }
}

/// Distinct members of one VLAN, mostly ports that are there.
pub fn member_ids(rng: &mut Rng, tables: &Tables, vlan: u16) -> Vec<u32> {
    let count = if rng.chance(90) {
        rng.range(1, 6)
    } else {
        rng.range(1, 62)
    };
    let mut ids: Vec<u32> = Vec::new();
    while ids.len() < count as usize {
        let low = if rng.chance(90) && count <= u64::from(tables.ports) {
            rng.range(0, u64::from(tables.ports)) as u16
        } else {
            rng.next() as u16
        };
        let id = group_id(0, vlan, low);
        if !ids.contains(&id) {
            ids.push(id);
        }
    }
    ids
}

/// A valid group with a given ID.
pub fn group(rng: &mut Rng, tables: &Tables, code: u16, id: u32) -> Command {
    let mut fields = vec![f(field::GROUP_ID, id.to_le_bytes())];
    if id_type(id) == 2 {
        let vlan_id = vlan(rng);
        // Mostly a group that is there, at times one with low bits that are no port.
        let live: Vec<u32> = tables
            .groups
            .keys()
            .copied()
            .filter(|id| id_type(*id) == 0)
            .collect();
        let lower = match !live.is_empty() && rng.chance(85) {
            true => rng.pick(&live),
            false => group_id(
                0,
                vlan_id,
                rng.pick(&[0, 1, tables.ports as u16, 63, 0xffff]),
            ),
        };
        let macs: [[u8; 6]; 5] = [MACS[0], MACS[2], MACS[3], [0; 6], [2, 0x77, 1, 2, 3, 4]];
        fields.push(f(field::GROUP_ID_LOWER, lower.to_le_bytes()));
        fields.push(f(field::VLAN_ID, id_vlan(lower).to_be_bytes()));
        fields.push(f(field::SRC_MAC, rng.pick(&macs)));
        fields.push(f(field::DST_MAC, rng.pick(&macs)));
    } else if id_type(id) == 0 {
        fields.push(f(field::OUT_PPORT, u32::from(id_low(id)).to_le_bytes()));
        fields.push(f(field::POP_VLAN, [rng.range(0, 1) as u8]));
    } else {
        let ids = member_ids(rng, tables, id_vlan(id));
        fields.push(f(field::GROUP_COUNT, (ids.len() as u16).to_le_bytes()));
        fields.push(f(field::GROUP_IDS, member_list(&ids)));
    }
    Command { code, fields }
}

pub fn fresh_group_id(rng: &mut Rng, ports: u32) -> u32 {
    if rng.chance(rng.routing) {
        return route_id(route_index(rng));
    }
    let kind = rng.pick(&[0, 0, 0, 3, 4]);
    let low = match (kind, rng.chance(90)) {
        (0, _) => rng.range(0, u64::from(ports)) as u16,
        (_, true) => rng.range(0, 4) as u16,
        (_, false) => rng.next() as u16,
    };
    group_id(kind, vlan(rng), low)
}

/// Mostly a key that is live, if there is one.
pub fn live_key<K: Copy>(rng: &mut Rng, keys: impl Iterator<Item = K>, percent: u64) -> Option<K> {
    let keys: Vec<K> = keys.collect();
    (!keys.is_empty() && rng.chance(percent)).then(|| rng.pick(&keys))
}

/// A command that is right in form; it may still miss or meet its key.
pub fn command(rng: &mut Rng, tables: &Tables) -> Command {
    let table = match rng.chance(rng.routing) {
        true => rng.pick(&[20, 30, 30]),
        false => rng.pick(&[0, 10, 10, 50, 50]),
    };
    match rng.range(0, 99) {
        0..=32 => {
            let key = live_key(rng, tables.flows.keys().copied(), 10);
            let key = key.unwrap_or_else(|| cookie(rng));
            flow(rng, tables, 3, key, table)
        }
        33..=43 => {
            let key = live_key(rng, tables.flows.keys().copied(), 80);
            let key = key.unwrap_or_else(|| cookie(rng));
            flow(rng, tables, 4, key, table)
        }
        44..=51 => {
            let key = live_key(rng, tables.flows.keys().copied(), 80);
            let key = key.unwrap_or_else(|| cookie(rng));
            Command {
                code: 5,
                fields: vec![f(field::COOKIE, key.to_le_bytes())],
            }
        }
        52..=81 => {
            let id = live_key(rng, tables.groups.keys().copied(), 10);
            let id = id.unwrap_or_else(|| fresh_group_id(rng, tables.ports));
            group(rng, tables, 7, id)
        }
        82..=92 => {
            let id = live_key(rng, tables.groups.keys().copied(), 80);
            let id = id.unwrap_or_else(|| fresh_group_id(rng, tables.ports));
            group(rng, tables, 8, id)
        }
        _ => {
            let id = live_key(rng, tables.groups.keys().copied(), 80);
            let id = id.unwrap_or_else(|| fresh_group_id(rng, tables.ports));
            Command {
                code: 9,
                fields: vec![f(field::GROUP_ID, id.to_le_bytes())],
            }
        }
    }
}

/// The values next to the edges of a field, right and wrong ones.
pub fn edge_values(command: &Command, kind: u32, ports: u32) -> Vec<Vec<u8>> {
    let le16 = |values: &[u16]| values.iter().map(|v| v.to_le_bytes().to_vec()).collect();
    let be16 = |values: &[u16]| values.iter().map(|v| v.to_be_bytes().to_vec()).collect();
    let le32 = |values: &[u32]| values.iter().map(|v| v.to_le_bytes().to_vec()).collect();
    match kind {
        field::TBL => le16(&[0, 1, 10, 20, 30, 40, 50, 51, 60, 0x0a00, 0x3200, 0xffff]),
        field::PRIORITY | field::HARDTIME | field::IDLETIME => le32(&[0, 1, u32::MAX]),
        field::COOKIE => [0, 1, u64::MAX].map(|v| v.to_le_bytes().to_vec()).to_vec(),
        field::IN_PPORT => le32(&[
            0,
            1,
            ports,
            ports + 1,
            62,
            63,
            1 << 16,
            0x0100_0000,
            u32::MAX,
        ]),
        field::IN_PPORT_MASK => le32(&[0, 1, u32::MAX]),
        field::OUT_PPORT => {
            let low = command.get(field::GROUP_ID).map_or(0, |v| u32::from(v[0]));
            le32(&[
                0,
                1,
                low,
                low + 1,
                low | 1 << 16,
                low << 8,
                ports,
                ports + 1,
                u32::MAX,
            ])
        }
        field::GOTO_TBL => le16(&[
            0, 1, 10, 20, 30, 40, 50, 60, 0x0a00, 0x1400, 0x1e00, 0x3c00, 0xffff,
        ]),
        field::ETHERTYPE => be16(&[
            0, 0x0800, 0x86dd, 0x0008, 0xdd86, 0x0806, 0x0801, 0x86dc, 0x8100, 0x8847, 0xffff,
        ]),
        field::GROUP_ID_LOWER => {
            let old = command
                .get(kind)
                .map_or(0, |v| u32::from_le_bytes(v.try_into().unwrap_or_default()));
            let mut ids: Vec<u32> = (0..16).map(|t| t << 28 | old & 0x0fff_ffff).collect();
            for vlan in [0, 1, 2, 4094, 4095] {
                ids.push(group_id(0, vlan, id_low(old)));
            }
            for low in [0, 1, ports as u16, ports as u16 + 1, 63, 0xffff] {
                ids.push(old & 0xffff_0000 | u32::from(low));
            }
            ids.push(old.swap_bytes());
            le32(&ids)
        }
        field::SRC_MAC => vec![
            vec![0; 6],
            vec![0xff; 6],
            MACS[3].to_vec(),
            MACS[0].to_vec(),
        ],
        field::DST_IP | field::DST_IPV6 => {
            let old = command.get(kind).map(<[u8]>::to_vec).unwrap_or_default();
            let firsts = [0, 1, 10, 127, 223, 224, 239, 240, 254, 255];
            firsts
                .iter()
                .map(|first| [&[*first], &old[1..]].concat())
                .collect()
        }
        field::DST_IP_MASK | field::DST_IPV6_MASK => {
            let width = command.get(kind).map_or(4, <[u8]>::len);
            let bits = 8 * width as u32;
            let mut out: Vec<Vec<u8>> = [0, 1, 7, 8, 9, 31, 32, bits - 1, bits]
                .iter()
                .map(|ones| mask(width, *ones))
                .collect();
            // No prefixes: a bit missing, one too many, zeros and then ones.
            for (ones, at) in [(24, 0), (24, 2), (8, 3), (0, width - 1), (16, 2), (bits, 1)] {
                let mut other = mask(width, ones);
                other[at] ^= 1;
                out.push(other);
            }
            out.push(mask(width, 9).into_iter().rev().collect());
            out
        }
        field::VLAN_ID | field::NEW_VLAN_ID => {
            be16(&[0, 1, 2, 4094, 4095, 4096, 0x0100, 0x1001, 0xffff])
        }
        field::GROUP_ID => {
            let old = command
                .get(field::GROUP_ID)
                .map_or(0, |v| u32::from_le_bytes(v.try_into().unwrap_or_default()));
            let mut ids: Vec<u32> = (0..16).map(|t| t << 28 | old & 0x0fff_ffff).collect();
            for vlan in [0, 1, 2, 4094, 4095] {
                ids.push(group_id(id_type(old), vlan, id_low(old)));
            }
            for low in [0, 1, ports as u16, ports as u16 + 1, 63, 0x100, 0xffff] {
                ids.push(old & 0xffff_0000 | u32::from(low));
            }
            ids.push(old.swap_bytes());
            le32(&ids)
        }
        field::GROUP_COUNT => {
            let old = command.get(kind).map_or(0, |v| u16::from(v[0]));
            le16(&[
                0,
                1,
                old.wrapping_sub(1),
                old + 1,
                62,
                63,
                old << 8,
                old | 0x100,
                0xffff,
            ])
        }
        field::GROUP_IDS => spoiled_lists(command),
        field::DST_MAC => {
            let old = command.get(kind).map(<[u8]>::to_vec).unwrap_or_default();
            let mut odd = old.clone();
            odd[0] ^= 1;
            let mut last = old;
            last[5] ^= 1;
            vec![odd, last, vec![0; 6], vec![0xff; 6]]
        }
        field::POP_VLAN => vec![vec![0], vec![1], vec![2], vec![0x80], vec![0xff]],
        _ => Vec::new(),
    }
}

/// Member lists with one thing changed, and some that stay right.
pub fn spoiled_lists(command: &Command) -> Vec<Vec<u8>> {
    let nest = command.get(field::GROUP_IDS).unwrap_or_default();
    let ids: Vec<u32> = nest
        .chunks(16)
        .map(|tlv| u32::from_le_bytes(tlv[8..12].try_into().unwrap_or_default()))
        .collect();
    let fields: Vec<Field> = (1..)
        .zip(&ids)
        .map(|(k, id)| f(k, id.to_le_bytes()))
        .collect();
    let last = ids.len() - 1;
    let changed = |change: &dyn Fn(&mut Vec<Field>)| {
        let mut fields = fields.clone();
        change(&mut fields);
        encode(&fields, 0, 0)
    };
    let member = |id: u32| changed(&|list| list[last].value = id.to_le_bytes().to_vec());
    let mut lists = vec![
        Vec::new(),
        changed(&|list| drop(list.pop())),
        changed(&|list| list.push(f(list.len() as u32 + 1, 0x0001_0001u32.to_le_bytes()))),
        changed(&|list| list.push(f(99, []))),
        changed(&|list| list.insert(0, f(99, [0; 4]))),
        changed(&|list| list[last].value.push(0)),
        changed(&|list| list[last].value.truncate(3)),
        changed(&|list| list[last].value.clear()),
        changed(&|list| list[last].value = vec![0; 8]),
        changed(&|list| list[last].kind += 1),
        changed(&|list| list[last].kind -= 1),
        changed(&|list| list[last].kind |= 1 << 16),
        changed(&|list| list.iter_mut().for_each(|field| field.kind -= 1)),
        changed(&|list| list.reverse()),
        encode(&fields, 0xabcd, 0x77),
        member(ids[0]),
        member(ids[last] ^ 1 << 16),
        member(ids[last] & 0xf000_ffff),
        member(ids[last] | 3 << 28),
        member(ids[last] | 4 << 28),
        member(ids[last] | 1 << 28),
        member(ids[last] | 0xffff),
        nest[..nest.len() - 4].to_vec(),
        nest[..nest.len() - 8].to_vec(),
        [nest, &[0; 4]].concat(),
        [nest, &[0; 8]].concat(),
        [nest, &[0, 0, 0, 0, 8, 0, 0, 0]].concat(),
    ];
    let mut long = nest.to_vec();
    long[4] = 0xff;
    lists.push(long);
    lists
}

/// A TLV's head alone: type and length.
fn head(kind: u32, length: u16) -> Vec<u8> {
    let mut out = kind.to_le_bytes().to_vec();
    out.extend(u32::from(length).to_le_bytes());
    out
}

/// Where the TLVs of a well formed region begin.
fn places(region: &[u8]) -> Vec<usize> {
    let (mut places, mut at) = (Vec::new(), 0);
    while at < region.len() {
        places.push(at);
        let length = u16::from_le_bytes([region[at + 4], region[at + 5]]);
        at += usize::from(length).next_multiple_of(8).max(HEAD);
    }
    places
}

/// A region with wrong lengths, and lengths that are only just right: in one
/// more TLV of a given type at its end or its beginning, and in those that it
/// has.
fn other_lengths(rng: &mut Rng, region: &[u8], kind: u32) -> Vec<Vec<u8>> {
    let mut out = Vec::new();
    // From 9 to 15 they go past the end by less than 8.
    for length in [0, 1, 2, 3, 4, 5, 6, 7, 7, 8, 9, 12, 15, 16, 17] {
        out.push([region, &head(kind, length)].concat());
    }
    for length in [0, 4, 7, 8, 9, 15, 16, 17, 23, 24] {
        out.push([region, &head(kind, length), &[0; 8]].concat());
    }
    for length in [0, rng.range(1, 7) as u16, 7, 8] {
        out.push([&head(kind, length), region].concat());
    }
    // The length that the value alone would have, and one with the header twice.
    out.push([region, &head(kind, 4), &rng.bytes(8)].concat());
    out.push([region, &head(kind, 20), &rng.bytes(8)].concat());
    let places = places(region);
    for _ in 0..20 * places.len().min(1) {
        // Of the last one a length can go past the end by little.
        let at = match rng.chance(50) {
            true => rng.pick(&places),
            false => places[places.len() - 1],
        };
        let old = u16::from_le_bytes([region[at + 4], region[at + 5]]);
        let rest = (region.len() - at) as u16;
        let under = rng.range(0, 7) as u16;
        let past = rest + rng.range(1, 7) as u16;
        let far = rng.pick(&[65_535, 65_534, 65_529, 65_528, 65_527, 65_520, 65_519]);
        let length = match rng.range(0, 11) {
            0..=2 => under,
            3 => rng.pick(&[0, 7]),
            4 => 8,
            5 => old.saturating_sub(8),
            6 => old + 8,
            7 => rng.pick(&[old - 1, old + 1]),
            8 => past,
            9 => rest + rng.pick(&[0, 8, 9]),
            10 => far,
            _ => old ^ 0x100,
        };
        let mut other = region.to_vec();
        other[at + 4..at + 6].copy_from_slice(&length.to_le_bytes());
        out.push(other);
    }
    rng.shuffle(&mut out);
    out.truncate(28);
    out
}

/// A command with lengths that are wrong or only just right, in each of its
/// regions, with faults that come before or after, and in the old meaning.
pub fn length_edges(rng: &mut Rng, command: &Command) -> Vec<Vec<u8>> {
    let mut out = old_meaning(command);
    let unlisted = rng.pick(&[99, 99, 0, 3]);
    out.extend(other_lengths(rng, &command.payload(), unlisted));
    let unlisted = rng.pick(&[99, 99, 0, 16, field::NEW_VLAN_ID, field::POP_VLAN]);
    for (k, nest) in (0..).zip(other_lengths(rng, &command.info(), unlisted)) {
        out.push(top(command.code, &nest));
        if k < 8 {
            // An unknown command comes before its nest.
            out.push(top(6, &nest));
        }
    }
    if let Some(at) = command.fields.iter().position(|f| f.kind == field::TBL) {
        // A table that is not there comes after it.
        let mut other = command.clone();
        other.fields.swap(0, at);
        other.fields[0].value = vec![rng.pick(&[40, 60]), 0];
        let under = head(99, rng.range(0, 7) as u16);
        out.push(top(command.code, &[other.info(), under].concat()));
    }
    if let Some(nest) = command.get(field::GROUP_IDS) {
        let next = places(nest).len() as u32 + 1;
        for (k, other) in (0..).zip(other_lengths(rng, nest, next)) {
            let mut changed = command.clone();
            changed.set(field::GROUP_IDS, other);
            out.push(changed.payload());
            if k < 8 {
                // A key that is there, or not, comes after it.
                changed.code = 15 - changed.code;
                out.push(changed.payload());
            }
        }
    }
    out.retain(|payload| payload.len() <= journal::LONGEST);
    out
}

/// A payload in the meaning of version 1, whole or in some of its regions.
fn old_meaning(command: &Command) -> Vec<Vec<u8>> {
    let payload = command.payload();
    let regions: [&[Place]; 7] = [
        &[Place::Top],
        &[Place::Info],
        &[Place::Members],
        &[Place::Top, Place::Info],
        &[Place::Info, Place::Members],
        &[Place::Top, Place::Members],
        &[Place::Top, Place::Info, Place::Members],
    ];
    let old = regions.map(|regions| {
        let mut out = payload.clone();
        let chosen = |place: Place, _| regions.contains(&place);
        recount(&mut out, Place::Top, Version::DEVICE, &chosen);
        out
    });
    let nest = |kinds: &[u32]| {
        let mut out = payload.clone();
        let chosen = |place, kind| match place {
            Place::Top => kind == CMD_INFO && kinds.contains(&CMD_INFO),
            Place::Info => kind == field::GROUP_IDS && kinds.contains(&kind),
            Place::Members => false,
        };
        recount(&mut out, Place::Top, Version::DEVICE, &chosen);
        out
    };
    let nests = [nest(&[CMD_INFO]), nest(&[field::GROUP_IDS])];
    old.into_iter().chain(nests).collect()
}

/// The types that a command uses, by its code and table or group type.
pub fn used(command: &Command) -> &'static [u32] {
    form(command).uses()
}

fn form(command: &Command) -> Form {
    let table = command.get(field::TBL).map_or(0, |v| v[0]);
    let kind = command.get(field::GROUP_ID).map_or(0, |v| v[3] >> 4);
    let v6 = command.get(field::ETHERTYPE) == Some(&EtherType::Ipv6.bytes());
    Form::of(command.code, u16::from(table), v6, u32::from(kind))
}

/// Whether a command skips a type: it neither uses it nor asks that it is not there.
pub fn skips(command: &Command, kind: u32) -> bool {
    !used(command).contains(&kind) && !form(command).excludes().contains(&kind)
}

/// A command with what it has to skip between its fields: fields that it does
/// not use, of odd widths and twice, and types that only end like those it
/// uses; also such types at the top, any pad and any fill.
pub fn with_skipped(rng: &mut Rng, command: &Command) -> Vec<u8> {
    let mut fields = command.fields.clone();
    let put = |rng: &mut Rng, fields: &mut Vec<Field>, kind, width| {
        let at = rng.range(0, fields.len() as u64) as usize;
        fields.insert(at, f(kind, rng.bytes(width)));
    };
    for (kind, _, width) in FIELDS {
        let width = width.unwrap_or(16);
        if skips(command, kind) && rng.chance(40) {
            for _ in 0..rng.range(1, 2) {
                let width = rng.pick(&[width, width, width - 1, width + 1, 0]);
                put(rng, &mut fields, kind, width);
            }
        }
        if rng.chance(15) {
            let high = rng.pick(&[1 << 8, 1 << 16, 1 << 31]);
            let width = rng.pick(&[width, width - 1]);
            put(rng, &mut fields, kind | high, width);
        }
    }
    if rng.chance(10) {
        put(rng, &mut fields, 0, 0);
    }
    let info = encode(&fields, rng.next() as u16, rng.next() as u8);
    let mut tops = vec![f(CMD_TYPE, command.code.to_le_bytes()), f(CMD_INFO, info)];
    if rng.chance(30) {
        tops.reverse();
    }
    for kind in [CMD_TYPE, CMD_INFO] {
        if rng.chance(40) {
            let high = rng.pick(&[1 << 8, 1 << 16, 1 << 31]);
            put(rng, &mut tops, kind | high, 2);
        }
    }
    encode(&tops, rng.next() as u16, rng.next() as u8)
}

/// A command with one thing changed, once for each thing: what is missing,
/// repeated, of another width or next to an edge, what is skipped, what is ill
/// formed, and pairs of faults whose order matters.
pub fn variations(rng: &mut Rng, command: &Command, ports: u32) -> Vec<Vec<u8>> {
    let mut out = Vec::new();
    let code = command.code.to_le_bytes();
    let info = command.info();
    let with = |change: &dyn Fn(&mut Vec<Field>)| command.with(|fields| change(fields));

    for (at, old) in command.fields.iter().enumerate() {
        let width = old.value.len();
        out.push(with(&|fields| drop(fields.remove(at))));
        out.push(with(&|fields| fields.insert(at, old.clone())));
        out.push(with(&|fields| fields.push(old.clone())));
        let other: Vec<u8> = old.value.iter().map(|byte| byte ^ 1).collect();
        out.push(with(&|fields| fields.push(f(old.kind, &other))));
        out.push(with(&|fields| fields.insert(0, f(old.kind, []))));
        for new in [
            0,
            width.saturating_sub(1),
            width + 1,
            width + 2,
            2 * width,
            width + 8,
        ] {
            out.push(with(&|fields| fields[at].value.resize(new, 0)));
        }
        for value in edge_values(command, old.kind, ports) {
            out.push(with(&|fields| fields[at].value = value.clone()));
            // A value next to the edge together with a fault of another field.
            if old.kind == field::TBL && command.fields.len() > 1 {
                out.push(with(&|fields| {
                    fields[at].value = value.clone();
                    fields.retain(|field| field.kind == field::TBL);
                }));
                out.push(with(&|fields| {
                    fields[at].value = value.clone();
                    fields.push(f(field::TBL, &value));
                }));
                out.push(with(&|fields| {
                    fields[at].value = value.clone();
                    fields[at].value.push(0);
                }));
            }
        }
    }
    // Fields that are listed elsewhere, and those that are listed nowhere.
    for (kind, _, width) in FIELDS {
        let junk = rng.bytes(width.unwrap_or(16));
        out.push(with(&|fields| fields.push(f(kind, &junk))));
        if !used(command).contains(&kind) {
            // Skipped, or refused if it is of the other EtherType.
            out.push(with(&|fields| fields.push(f(kind, &junk[1..]))));
            out.push(with(&|fields| {
                fields.insert(0, f(kind, &junk[1..]));
                fields.push(f(kind, &junk));
                fields.push(f(kind, [1; 9]));
            }));
        }
    }
    for kind in [
        0,
        15,
        16,
        18,
        20,
        22,
        25,
        27,
        34,
        35,
        40,
        42,
        44,
        99,
        1 << 16 | 1,
        u32::MAX,
    ] {
        let junk = rng.range(0, 20) as usize;
        let junk = rng.bytes(junk);
        out.push(with(&|fields| {
            fields.insert(0, f(kind, &junk));
            fields.push(f(kind, []));
        }));
    }
    out.push(with(&|fields| fields.reverse()));
    out.push(with(&|fields| fields.clear()));
    let noisy = encode(&command.fields, 0xbeef, 0x5a);
    let pair = [f(CMD_TYPE, code), f(CMD_INFO, &noisy)];
    out.push(encode(&pair, 0x1234, 0xa5));

    // Nests that are ill formed, or only just not.
    let mut nests = vec![
        [&info[..], &[0; 4]].concat(),
        [&info[..], &[0; 8]].concat(),
        [&info[..], &[0; 1]].concat(),
        [&info[..], &[99, 0, 0, 0, 9, 0, 0, 0]].concat(),
        [
            &info[..],
            &[99, 0, 0, 0, 16, 0, 0, 0, 1, 2, 3, 4, 5, 6, 7, 8],
        ]
        .concat(),
    ];
    for cut in [1, 4, 7, 8] {
        if info.len() > cut {
            nests.push(info[..info.len() - cut].to_vec());
        }
    }
    if info.len() >= 8 {
        let mut long = info.clone();
        long[4] = 0xff;
        long[5] = 0xff;
        nests.push(long);
    }
    for nest in &nests {
        out.push(top(command.code, nest));
        // An unknown command comes before its nest.
        out.push(top(6, nest));
    }
    // The top.
    let unknown = [
        0,
        1,
        2,
        6,
        10,
        11,
        command.code << 8,
        0x100 | command.code,
        0xffff,
    ];
    for other in unknown {
        out.push(top(other, &info));
        out.push(top(other, &[]));
    }
    for other in [3, 4, 5, 7, 8, 9] {
        out.push(top(other, &info));
    }
    let (a, b) = (f(CMD_TYPE, code), f(CMD_INFO, &info));
    let tops: Vec<Vec<Field>> = vec![
        vec![],
        vec![a.clone()],
        vec![b.clone()],
        vec![b.clone(), a.clone()],
        vec![a.clone(), a.clone(), b.clone()],
        vec![a.clone(), b.clone(), f(CMD_TYPE, [6, 0])],
        vec![a.clone(), b.clone(), b.clone()],
        vec![a.clone(), f(CMD_INFO, []), b.clone()],
        vec![f(CMD_TYPE, []), b.clone()],
        vec![f(CMD_TYPE, &code[..1]), b.clone()],
        vec![f(CMD_TYPE, [code[0], 0, 0]), b.clone()],
        vec![f(CMD_TYPE, [code[0], 0, 0, 0]), b.clone()],
        vec![f(CMD_TYPE, [6, 0])],
        vec![f(CMD_TYPE, [6, 0]), b.clone(), b.clone()],
        vec![f(CMD_TYPE, [6, 0]), f(CMD_TYPE, [6, 0]), b.clone()],
        vec![f(3, [1; 3]), a.clone(), f(99, []), b.clone(), f(3, [1])],
        vec![f(0, []), f(5, [0; 9]), f(5, []), a.clone(), b.clone()],
        vec![f(1 << 16 | 1, []), a.clone(), b.clone()],
    ];
    for fields in &tops {
        out.push(encode(fields, 0, 0));
    }
    let payload = command.payload();
    for cut in [1, 4, 8, 16] {
        out.push(payload[..payload.len() - cut].to_vec());
    }
    out.push([&payload[..], &[0; 4]].concat());
    out.push([&payload[..], &[0; 8]].concat());
    out.push([&payload[..], &[0, 0, 0, 0, 8, 0, 0, 0]].concat());
    out.extend(length_edges(rng, command));
    // The same with a nest that is too long for the payload.
    let mut long = payload.clone();
    let at = 16 + 4;
    long[at] = long[at].wrapping_add(8);
    out.push(long);
    for _ in 0..4 {
        let mut flipped = payload.clone();
        let at = rng.index(flipped.len());
        flipped[at] ^= 1 << rng.range(0, 7);
        out.push(flipped);
    }
    out.retain(|payload| payload.len() <= journal::LONGEST);
    out
}

/// A payload for the tables as they are: mostly valid, else varied once.
pub fn any_payload(rng: &mut Rng, tables: &Tables, valid: u64) -> Vec<u8> {
    let mut command = command(rng, tables);
    if rng.skipping > 0 && rng.chance(rng.skipping) {
        return with_skipped(rng, &command);
    }
    if rng.chance(valid) {
        if rng.chance(20) {
            rng.shuffle(&mut command.fields);
        }
        return command.payload();
    }
    let all = variations(rng, &command, tables.ports);
    rng.pick(&all)
}

/// One command of each form, with keys that are live or not.
pub fn forms(rng: &mut Rng, tables: &Tables) -> Vec<Command> {
    let mut out = Vec::new();
    let key = |rng: &mut Rng| {
        let live = live_key(rng, tables.flows.keys().copied(), 50);
        live.unwrap_or_else(|| cookie(rng))
    };
    let v = vlan(rng);
    for code in [3, 4] {
        for table in [0, 10, 20, 30, 50] {
            let cookie = key(rng);
            out.push(flow(rng, tables, code, cookie, table));
        }
        for ethertype in [EtherType::Ipv4, EtherType::Ipv6] {
            let cookie = key(rng);
            let mut command = flow(rng, tables, code, cookie, 20);
            command.set(field::ETHERTYPE, ethertype.bytes());
            out.push(command);
            let cookie = key(rng);
            let mut command = flow(rng, tables, code, cookie, 30);
            let addresses = [
                field::ETHERTYPE,
                field::DST_IP,
                field::DST_IP_MASK,
                field::DST_IPV6,
                field::DST_IPV6_MASK,
            ];
            command
                .fields
                .retain(|field| !addresses.contains(&field.kind));
            let prefix = prefix(rng, ethertype);
            command.fields.extend(prefix_fields(ethertype, &prefix));
            command.set(field::GROUP_ID, route_id(route_index(rng)).to_le_bytes());
            out.push(command);
        }
        for vlan_id in [0, v] {
            let cookie = key(rng);
            let mut command = flow(rng, tables, code, cookie, 10);
            command
                .fields
                .retain(|field| field.kind != field::NEW_VLAN_ID);
            command.set(field::VLAN_ID, vlan_id.to_be_bytes());
            if vlan_id == 0 {
                command.set(field::NEW_VLAN_ID, v.to_be_bytes());
            }
            out.push(command);
        }
        for (mac, kind) in [
            (Some(MACS[0]), Some(0)),
            (Some(MACS[3]), Some(3)),
            (Some(MACS[4]), Some(4)),
            (None, Some(4)),
            (Some(MACS[1]), None),
            (None, None),
        ] {
            let cookie = key(rng);
            let mut command = flow(rng, tables, code, cookie, 50);
            command
                .fields
                .retain(|field| ![field::DST_MAC, field::GROUP_ID].contains(&field.kind));
            command.set(field::VLAN_ID, v.to_be_bytes());
            if let Some(mac) = mac {
                command.set(field::DST_MAC, mac);
            }
            if let Some(kind) = kind {
                let id = group_id(kind, v, rng.range(0, u64::from(tables.ports)) as u16);
                command.set(field::GROUP_ID, id.to_le_bytes());
            }
            out.push(command);
        }
    }
    let cookie = key(rng);
    out.push(Command {
        code: 5,
        fields: vec![f(field::COOKIE, cookie.to_le_bytes())],
    });
    for kind in [0, 2, 3, 4] {
        for code in [7, 8, 9] {
            let low = rng.range(0, u64::from(tables.ports)) as u16;
            let id = match kind {
                2 => route_id(route_index(rng)),
                kind => group_id(kind, v, low),
            };
            let mut command = group(rng, tables, code, id);
            if code == 9 {
                command.fields.truncate(1);
            }
            out.push(command);
        }
    }
    out
}

/// Commands whose fields agree with one another on a wrong value: no members,
/// ports that are not there, numbers that are right in their low bits.
pub fn nearly_right(rng: &mut Rng, tables: &Tables) -> Vec<Vec<u8>> {
    let vlan = vlan(rng);
    let id = group_id(rng.pick(&[3, 4]), vlan, rng.next() as u16);
    let mut none = group(rng, tables, 7, id);
    none.set(field::GROUP_COUNT, [0, 0]);
    none.set(field::GROUP_IDS, []);
    let mut out = vec![none.payload()];
    let above = tables.ports as u16 + 1;
    for (low, port) in [
        (above, above),
        (62, 62),
        (63, 63),
        (0x101, 1),
        (0x101, 0x101),
    ] {
        let mut command = group(rng, tables, 7, group_id(0, vlan, low));
        command.set(field::OUT_PPORT, u32::from(port).to_le_bytes());
        out.push(command.payload());
    }
    let cookie = cookie(rng);
    let mut command = flow(rng, tables, 3, cookie, 10);
    command.set(field::IN_PPORT, 0x0001_0001u32.to_le_bytes());
    out.push(command.payload());
    // Routes whose address is unicast under its mask alone, or without it alone.
    for (address, ones) in [([224, 0, 0, 0], 0), ([255, 1, 2, 3], 1), ([10, 1, 2, 3], 0)] {
        let prefix = Prefix {
            address: address.to_vec(),
            mask: mask(4, ones),
        };
        let command = route_command(rng, tables, cookie, EtherType::Ipv4, &prefix, None);
        out.push(command.payload());
    }
    // Masks that are prefixes but for one bit behind, and groups of other types.
    let bad: [(EtherType, usize, u8); 4] = [
        (EtherType::Ipv4, 3, 0x01),
        (EtherType::Ipv4, 2, 0xfd),
        (EtherType::Ipv6, 15, 0x01),
        (EtherType::Ipv6, 9, 0x10),
    ];
    for (ethertype, at, bits) in bad {
        let mut prefix = prefix(rng, ethertype);
        let width = prefix.mask.len();
        prefix.mask = mask(width, if width == 4 { 24 } else { 64 });
        prefix.mask[at] = bits;
        out.push(route_command(rng, tables, cookie, ethertype, &prefix, None).payload());
    }
    let host = group_id(0, vlan, 0);
    for id in [0, host, host | 3 << 28, host | 4 << 28, host | 1 << 28] {
        let prefix = prefix(rng, EtherType::Ipv4);
        let command = route_command(rng, tables, cookie, EtherType::Ipv4, &prefix, Some(id));
        out.push(command.payload());
    }
    // Table 20 with a port that is one in its low bits, and with other tables to go to.
    for (port, goto) in [
        (0x0001_0001u32, 30u8),
        (1, 0),
        (1, 40),
        (1, 50),
        (1, 60),
        (0, 30),
    ] {
        let mut command = flow(rng, tables, 3, cookie, 20);
        command.set(field::IN_PPORT, port.to_le_bytes());
        command.set(field::GOTO_TBL, [goto, 0]);
        out.push(command.payload());
    }
    // A group of type 2 as a lower one, as a member and in table 50.
    let route = host | 2 << 28;
    for kind in [2, 3, 4] {
        let id = route_id(rng.next() as u32);
        let mut command = group(rng, tables, 7, id);
        command.set(field::GROUP_ID_LOWER, (host | kind << 28).to_le_bytes());
        command.set(field::VLAN_ID, vlan.to_be_bytes());
        out.push(command.payload());
    }
    let mut list = group(rng, tables, 7, group_id(4, vlan, 0x2222));
    list.set(field::GROUP_COUNT, [1, 0]);
    list.set(field::GROUP_IDS, member_list(&[route]));
    out.push(list.payload());
    let mut bridge = flow(rng, tables, 3, cookie, 50);
    bridge.set(field::VLAN_ID, vlan.to_be_bytes());
    bridge.set(field::DST_MAC, MACS[0]);
    bridge.set(field::GROUP_ID, route.to_le_bytes());
    out.push(bridge.payload());
    // A lower group of another VLAN, or a VLAN that has none.
    for (lower, vlan_id) in [(vlan, vlan ^ 1), (0, 0), (4095, 4095), (vlan, vlan)] {
        let id = route_id(rng.next() as u32);
        let mut command = group(rng, tables, 7, id);
        command.set(field::GROUP_ID_LOWER, group_id(0, lower, 1).to_le_bytes());
        command.set(field::VLAN_ID, vlan_id.to_be_bytes());
        out.push(command.payload());
    }
    out
}

/// A route to a prefix, right in all else.
pub fn route_command(
    rng: &mut Rng,
    tables: &Tables,
    cookie: u64,
    ethertype: EtherType,
    prefix: &Prefix,
    group: Option<u32>,
) -> Command {
    let mut command = flow(rng, tables, 3, cookie, 30);
    let own = |kind: u32| !(36..=39).contains(&kind) && ![10, 23].contains(&kind);
    command.fields.retain(|field| own(field.kind));
    command.fields.extend(prefix_fields(ethertype, prefix));
    if let Some(id) = group {
        command.set(field::GROUP_ID, id.to_le_bytes());
    }
    command
}

/// Lists of 62 and 63 members that agree with their count.
pub fn longest_lists(rng: &mut Rng, vlan: u16) -> Vec<Vec<u8>> {
    let mut out = Vec::new();
    for count in [61u16, 62, 63] {
        let ids: Vec<u32> = (0..count).map(|port| group_id(0, vlan, port)).collect();
        let kind = rng.pick(&[3, 4]);
        let command = Command {
            code: 7,
            fields: vec![
                f(
                    field::GROUP_ID,
                    group_id(kind, vlan, 900 + count).to_le_bytes(),
                ),
                f(field::GROUP_COUNT, count.to_le_bytes()),
                f(field::GROUP_IDS, member_list(&ids)),
            ],
        };
        out.push(command.payload());
    }
    out
}

/// Adds that fill the flows up, and a few more.
pub fn flow_fillers(rng: &mut Rng, tables: &Tables) -> Vec<Vec<u8>> {
    let missing = 256usize.saturating_sub(tables.flows.len());
    (0..missing as u64 + 3)
        .map(|at| {
            let table = match rng.chance(rng.routing) {
                true => rng.pick(&[20, 30]),
                false => rng.pick(&[0, 10, 50]),
            };
            flow(rng, tables, 3, 0x1_0000 + at, table).payload()
        })
        .collect()
}

/// The same in table 50 alone, each for a station of its own and before most flows that are there.
pub fn stations(rng: &mut Rng, tables: &Tables) -> Vec<Vec<u8>> {
    let missing = 256usize.saturating_sub(tables.flows.len());
    (0..missing as u64 + 3)
        .map(|at| {
            let mut command = flow(rng, tables, 3, 0x1_0000 + at, 50);
            command.fields.retain(|field| field.kind != field::GROUP_ID);
            command.set(field::PRIORITY, 7u32.to_le_bytes());
            command.set(field::DST_MAC, [2, 7, 0, 0, 0, at as u8]);
            command.payload()
        })
        .collect()
}

/// Adds that fill the groups up, and a few more.
pub fn group_fillers(rng: &mut Rng, tables: &Tables) -> Vec<Vec<u8>> {
    let missing = 128usize.saturating_sub(tables.groups.len());
    (0..missing as u16 + 3)
        .map(|at| {
            let kind = rng.pick(&[3, 4]);
            let id = match rng.chance(rng.routing) {
                true => route_id(1_000 + u32::from(at)),
                false => group_id(kind, vlan(rng), 1_000 + at),
            };
            group(rng, tables, 7, id).payload()
        })
        .collect()
}

pub fn some_ports(rng: &mut Rng) -> u64 {
    let any = rng.range(1, 62);
    rng.pick(&[1, 2, 4, 4, 8, 61, 62, any])
}
