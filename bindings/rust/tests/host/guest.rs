//! A guest for the tests: payloads as it writes them, and a switch with its ring.

use rocker::{register, Device, Refusal, Status, Written, RECORD};

pub const FLOW_ADD: u16 = 3;
pub const FLOW_DEL: u16 = 5;
pub const GROUP_ADD: u16 = 7;
pub const VLAN: u16 = 5;
const SLOTS: u64 = 8;
const PLACE: usize = 0x400;

/// A TLV: its length counts the 8 bytes in front of the value.
fn tlv(kind: u32, value: &[u8]) -> Vec<u8> {
    let mut bytes = kind.to_le_bytes().to_vec();
    bytes.extend((8 + value.len() as u16).to_le_bytes());
    bytes.extend([0, 0]);
    bytes.extend(value);
    bytes.resize(bytes.len().next_multiple_of(8), 0);
    bytes
}

fn command(kind: u16, fields: &[Vec<u8>]) -> Vec<u8> {
    [tlv(1, &kind.to_le_bytes()), tlv(2, &fields.concat())].concat()
}

fn flow(kind: u16, table: u16, cookie: u64, go_to: u16, fields: &[Vec<u8>]) -> Vec<u8> {
    let mut all = vec![
        tlv(1, &table.to_le_bytes()),
        tlv(2, &1u32.to_le_bytes()),
        tlv(5, &cookie.to_le_bytes()),
        tlv(9, &go_to.to_le_bytes()),
    ];
    all.extend_from_slice(fields);
    command(kind, &all)
}

/// The group of one port, whose frames leave without a tag.
pub fn interface(kind: u16, port: u32) -> Vec<u8> {
    let id = (u32::from(VLAN) << 16 | port).to_le_bytes();
    command(kind, &[tlv(10, &id), tlv(8, &port.to_le_bytes()), tlv(43, &[1])])
}

/// Untagged frames from port 1 get the VLAN.
pub fn vlan(kind: u16, cookie: u64) -> Vec<u8> {
    let fields = [tlv(6, &1u32.to_le_bytes()), tlv(14, &[0, 0]), tlv(19, &VLAN.to_be_bytes())];
    flow(kind, 10, cookie, 20, &fields)
}

/// Frames to a station go to a port's group.
pub fn bridge(kind: u16, cookie: u64, mac: [u8; 6], port: u32) -> Vec<u8> {
    let id = (u32::from(VLAN) << 16 | port).to_le_bytes();
    flow(kind, 50, cookie, 60, &[tlv(14, &VLAN.to_be_bytes()), tlv(24, &mac), tlv(10, &id)])
}

pub fn flow_del(cookie: u64) -> Vec<u8> {
    command(FLOW_DEL, &[tlv(5, &cookie.to_le_bytes())])
}

/// A neighbour behind a port: the group of that port, with both MACs.
pub fn neighbour(kind: u16, port: u32, source: [u8; 6], destination: [u8; 6]) -> Vec<u8> {
    let (id, lower) = (2 << 28 | port, u32::from(VLAN) << 16 | port);
    let fields = [
        tlv(10, &id.to_le_bytes()),
        tlv(11, &lower.to_le_bytes()),
        tlv(14, &VLAN.to_be_bytes()),
        tlv(24, &destination),
        tlv(26, &source),
    ];
    command(kind, &fields)
}

/// IPv4 frames from port 1 to the router's MAC are routed.
pub fn termination(kind: u16, cookie: u64, router: [u8; 6]) -> Vec<u8> {
    let port = tlv(6, &1u32.to_le_bytes());
    let fields = [port, tlv(14, &VLAN.to_be_bytes()), tlv(23, &[8, 0]), tlv(24, &router)];
    flow(kind, 20, cookie, 30, &fields)
}

/// A network of 24 bits goes to the neighbour behind a port.
pub fn route(kind: u16, cookie: u64, network: [u8; 4], port: u32) -> Vec<u8> {
    let group = tlv(10, &(2u32 << 28 | port).to_le_bytes());
    flow(
        kind,
        30,
        cookie,
        60,
        &[group, tlv(23, &[8, 0]), tlv(36, &network), tlv(37, &[255, 255, 255, 0])],
    )
}

/// A switch of 4 ports, all up and enabled, with a ring of 8 slots at guest address 0.
pub struct Guest {
    pub device: Device,
    pub memory: Vec<u8>,
    pub buffer: Vec<u8>,
    head: u64,
}

impl Guest {
    pub fn new() -> Self {
        let device = Device::fresh(4, 7).expect("4 ports");
        let mut guest = Guest {
            device,
            memory: vec![0; 0x1000],
            buffer: vec![0; RECORD],
            head: 0,
        };
        (1..=4).for_each(|port| guest.device.link(port, true).expect("a port"));
        guest.ring();
        guest
    }

    /// The guest sets its ring up, as it does after a reset.
    pub fn ring(&mut self) {
        self.head = 0;
        self.set(register::PORT_PHYS_ENABLE, 8, u64::MAX);
        self.set(register::BASE_ADDR, 8, 0);
        self.set(register::SIZE, 4, SLOTS);
    }

    pub fn set(&mut self, offset: u64, width: u64, value: u64) -> Written {
        self.device.write(offset, width, value).expect("a write that is accepted")
    }

    pub fn post(&mut self, payload: &[u8]) {
        self.memory[PLACE..PLACE + payload.len()].copy_from_slice(payload);
        let at = 32 * self.head as usize;
        let size = (payload.len() as u16).to_le_bytes();
        self.memory[at..at + 32].fill(0);
        self.memory[at..at + 8].copy_from_slice(&(PLACE as u64).to_le_bytes());
        self.memory[at + 16..at + 18].copy_from_slice(&size);
        self.memory[at + 18..at + 20].copy_from_slice(&size);
        self.head = (self.head + 1) % SLOTS;
        self.set(register::HEAD, 4, self.head);
    }

    /// One slot processed and its credit returned: the status, and the record.
    pub fn process(&mut self) -> Result<(Status, Vec<u8>), Refusal> {
        let done = self.device.process(&mut self.memory, &mut self.buffer)?;
        let (status, record) = (done.status(), done.record.to_vec());
        self.set(register::CREDITS, 4, 1);
        Ok((status, record))
    }

    pub fn carry_out(&mut self, payload: &[u8]) -> Status {
        self.post(payload);
        self.process().expect("a slot").0
    }
}
