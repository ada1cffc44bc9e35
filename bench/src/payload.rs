//! Payloads, descriptors and journals, as the guide lays them out.

pub const FLOW_ADD: u16 = 3;
pub const FLOW_MOD: u16 = 4;
pub const FLOW_DEL: u16 = 5;
pub const GROUP_ADD: u16 = 7;
pub const GROUP_DEL: u16 = 9;
pub const VLAN: u16 = 5;

// A TLV's length counts the eight bytes in front of its value.
fn tlv(kind: u32, value: &[u8]) -> Vec<u8> {
    let mut bytes = kind.to_le_bytes().to_vec();
    bytes.extend((8 + value.len() as u16).to_le_bytes());
    bytes.extend([0, 0]);
    bytes.extend(value);
    bytes.resize(bytes.len().next_multiple_of(8), 0);
    bytes
}

fn command(kind: u16, fields: &[Vec<u8>]) -> Vec<u8> {
    let mut bytes = tlv(1, &kind.to_le_bytes());
    bytes.extend(tlv(2, &fields.concat()));
    bytes
}

fn flow(kind: u16, table: u16, cookie: u64, priority: u32, goto: u16, matching: &[Vec<u8>]) -> Vec<u8> {
    let mut fields = vec![
        tlv(1, &table.to_le_bytes()),
        tlv(2, &priority.to_le_bytes()),
        tlv(5, &cookie.to_le_bytes()),
        tlv(9, &goto.to_le_bytes()),
    ];
    fields.extend_from_slice(matching);
    command(kind, &fields)
}

/// Frames from any port go on to table 10.
pub fn ingress(kind: u16, cookie: u64) -> Vec<u8> {
    prior(kind, cookie, 1)
}

fn prior(kind: u16, cookie: u64, priority: u32) -> Vec<u8> {
    let (port, mask) = (1u32.to_le_bytes(), 0u32.to_le_bytes());
    flow(kind, 0, cookie, priority, 10, &[tlv(6, &port), tlv(7, &mask)])
}

/// Frames from port 1 on the VLAN go on to table 20.
pub fn vlan(kind: u16, cookie: u64) -> Vec<u8> {
    vlan_flow(kind, cookie, VLAN)
}

/// The same on any VLAN.
pub fn vlan_flow(kind: u16, cookie: u64, vlan: u16) -> Vec<u8> {
    let (port, vlan) = (1u32.to_le_bytes(), vlan.to_be_bytes());
    flow(kind, 10, cookie, 1, 20, &[tlv(6, &port), tlv(14, &vlan)])
}

/// Frames of the VLAN to a station go to a group.
pub fn bridge(kind: u16, cookie: u64, mac: [u8; 6], group: u32) -> Vec<u8> {
    let (vlan, group) = (VLAN.to_be_bytes(), group.to_le_bytes());
    flow(
        kind,
        50,
        cookie,
        1,
        60,
        &[tlv(14, &vlan), tlv(24, &mac), tlv(10, &group)],
    )
}

/// What is routed, by its EtherType.
#[derive(Clone, Copy)]
pub enum Family {
    V4 = 0x0800,
    V6 = 0x86dd,
}

impl Family {
    fn ethertype(self) -> [u8; 2] {
        (self as u16).to_be_bytes()
    }

    /// A network, 10.0.N.0/24 or fd00:0:0:N::/64: its address and mask.
    fn network(self, n: u16) -> (Vec<u8>, Vec<u8>) {
        let [high, low] = n.to_be_bytes();
        match self {
            Family::V4 => (vec![10, high, low, 0], vec![0xff, 0xff, 0xff, 0]),
            Family::V6 => {
                let mut address = vec![0xfd, 0, 0, 0, 0, 0, high, low];
                let mut mask = vec![0xff; 8];
                address.resize(16, 0);
                mask.resize(16, 0);
                (address, mask)
            }
        }
    }

    /// The type of DST_IP or DST_IPV6; the mask's is the next.
    fn field(self) -> u32 {
        match self {
            Family::V4 => 36,
            Family::V6 => 38,
        }
    }

    /// Where the header has the destination.
    fn place(self) -> usize {
        match self {
            Family::V4 => 16,
            Family::V6 => 24,
        }
    }
}

const ROUTER: [u8; 6] = [2, 0xaa, 0, 0, 0, 1];

/// Frames from port 1 on the VLAN to the router's MAC go on to table 30.
pub fn termination(kind: u16, cookie: u64, family: Family) -> Vec<u8> {
    let (port, vlan) = (1u32.to_le_bytes(), VLAN.to_be_bytes());
    let fields = [tlv(6, &port), tlv(14, &vlan), tlv(23, &family.ethertype()), tlv(24, &ROUTER)];
    flow(kind, 20, cookie, 1, 30, &fields)
}

/// Frames to a network go to the neighbour behind a port.
pub fn route(kind: u16, cookie: u64, family: Family, n: u16, port: u32) -> Vec<u8> {
    let (address, mask) = family.network(n);
    let fields = [
        tlv(10, &neighbour_id(port).to_le_bytes()),
        tlv(23, &family.ethertype()),
        tlv(family.field(), &address),
        tlv(family.field() + 1, &mask),
    ];
    flow(kind, 30, cookie, 1, 60, &fields)
}

pub fn flow_del(cookie: u64) -> Vec<u8> {
    command(FLOW_DEL, &[tlv(5, &cookie.to_le_bytes())])
}

pub fn interface_id(port: u32) -> u32 {
    u32::from(VLAN) << 16 | port
}

pub fn flood_id(index: u32) -> u32 {
    4 << 28 | u32::from(VLAN) << 16 | index
}

/// The group of one port.
pub fn interface(port: u32) -> Vec<u8> {
    let (id, port) = (interface_id(port).to_le_bytes(), port.to_le_bytes());
    command(GROUP_ADD, &[tlv(10, &id), tlv(8, &port), tlv(43, &[1])])
}

pub fn neighbour_id(port: u32) -> u32 {
    2 << 28 | port
}

/// The neighbour behind a port: the group of that port, with both MACs.
pub fn neighbour(port: u32) -> Vec<u8> {
    let (id, lower) = (neighbour_id(port).to_le_bytes(), interface_id(port).to_le_bytes());
    let vlan = VLAN.to_be_bytes();
    command(
        GROUP_ADD,
        &[tlv(10, &id), tlv(11, &lower), tlv(14, &vlan), tlv(24, &mac(u64::from(port))), tlv(26, &ROUTER)],
    )
}

/// A flood to ports 1 to 62.
pub fn flood(index: u32) -> Vec<u8> {
    let members: Vec<u8> = (1..=62)
        .flat_map(|k| tlv(k, &interface_id(k).to_le_bytes()))
        .collect();
    let (id, count) = (flood_id(index).to_le_bytes(), 62u16.to_le_bytes());
    command(GROUP_ADD, &[tlv(10, &id), tlv(12, &count), tlv(13, &members)])
}

pub fn group_del(id: u32) -> Vec<u8> {
    command(GROUP_DEL, &[tlv(10, &id.to_le_bytes())])
}

pub fn mac(station: u64) -> [u8; 6] {
    [2, 0, 0, 0, (station >> 8) as u8, station as u8]
}

/// A tagged frame of the VLAN, 64 bytes.
pub fn frame(to: [u8; 6]) -> Vec<u8> {
    let mut bytes = to.to_vec();
    bytes.extend([2, 1, 1, 1, 1, 1, 0x81, 0x00]);
    bytes.extend(VLAN.to_be_bytes());
    bytes.resize(64, 0);
    bytes
}

/// What the tables look at in such a frame: MAC, address, VLAN, EtherType, and that it is long enough for an address.
pub fn headers(to: [u8; 6]) -> [u64; 6] {
    let mac = to.iter().rev().fold(0, |n, &byte| n << 8 | u64::from(byte));
    [mac, 0, 0, u64::from(VLAN), 0, 1]
}

/// The same to a host of a network, by the router.
pub fn routed_frame(family: Family, n: u16) -> Vec<u8> {
    let mut bytes = frame(ROUTER);
    let (address, _) = family.network(n);
    let at = 18 + family.place();
    bytes[16..18].copy_from_slice(&family.ethertype());
    bytes[at..at + address.len()].copy_from_slice(&address);
    bytes[at + address.len() - 1] = 1;
    bytes
}

/// The descriptor of a payload at an address.
pub fn descriptor(at: u64, length: usize) -> [u8; 32] {
    let mut bytes = [0; 32];
    bytes[..8].copy_from_slice(&at.to_le_bytes());
    bytes[16..18].copy_from_slice(&(length as u16).to_le_bytes());
    bytes[18..20].copy_from_slice(&(length as u16).to_le_bytes());
    bytes
}

/// A journal of so many records on a switch with 250 flows: of ten changes six are mods, each to another priority, two a del and the add after
/// it, one an add that is refused (EEXIST) and one a del that is refused (ENOENT).
pub fn journal(records: u64) -> Vec<u8> {
    let mut bytes = b"RKT\x03\x00\x3e".to_vec();
    let mut count = 0;
    let mut put = |status: u16, payload: Vec<u8>| {
        bytes.extend((0x8000 | status).to_le_bytes());
        bytes.extend((payload.len() as u16).to_le_bytes());
        bytes.extend([0, 0]);
        bytes.extend(payload);
        count += 1;
        count < records
    };
    let mut state = 1u64;
    let mut random = move |below: u64| {
        state = state
            .wrapping_mul(6364136223846793005)
            .wrapping_add(1442695040888963407);
        (state >> 33) % below
    };
    let mut more = true;
    for cookie in 1..=250 {
        more = more && put(0, ingress(FLOW_ADD, 2 * cookie));
    }
    while more {
        let cookie = 2 * random(250) + 2;
        more = match random(10) {
            0..=5 => put(0, prior(FLOW_MOD, cookie, random(1000) as u32)),
            6..=7 => put(0, flow_del(cookie)) && put(0, ingress(FLOW_ADD, cookie)),
            8 => put(17, ingress(FLOW_ADD, cookie)),
            _ => put(2, flow_del(cookie + 1)),
        };
    }
    bytes
}
