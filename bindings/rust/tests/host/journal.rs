//! What a host bills from: the incident, a reset that is told, and a journal kept over one.

use crate::guest::*;
use rocker::{register, Device, Refusal, Status, Written, LIST, RECORD};

/// The same HEAD, eighteen times more: accepted, and nothing is posted.
#[test]
fn incident() {
    let mut g = Guest::new();
    g.post(&interface(GROUP_ADD, 2));
    for _ in 0..18 {
        assert_eq!(g.set(register::HEAD, 4, 1), Written::default());
    }
    assert_eq!(g.process().map(|(status, _)| status), Ok(Status::Ok));
    assert_eq!(g.process(), Err(Refusal::Idle));
    assert_eq!(g.device.read(register::CREDITS, 4), Ok(0));
}

/// Told exactly where bit 0 of CONTROL is written; then the tables are empty, and links, ports and switch ID stay.
#[test]
fn reset_is_told() {
    let mut g = Guest::new();
    assert_eq!(g.carry_out(&interface(GROUP_ADD, 2)), Status::Ok);
    for (offset, width, value) in [
        (register::CONTROL, 4, 2),
        (register::CTRL, 4, 1),
        (register::TEST, 4, 1),
        (register::SIZE, 4, 8),
    ] {
        assert_eq!(g.set(offset, width, value), Written::default());
    }
    assert_eq!(g.device.write(register::CONTROL, 8, 1), Err(Refusal::Access));
    g.ring();
    assert_eq!(g.carry_out(&interface(GROUP_ADD, 2)), Status::Eexist);
    let told = Written {
        raised: false,
        reset: true,
    };
    for value in [1, 3, (1 << 32) + 1] {
        assert_eq!(g.set(register::CONTROL, 4, value), told);
        assert_eq!(g.device.read(register::PORT_PHYS_LINK_STATUS, 8), Ok(0b11110));
        assert_eq!(g.device.read(register::SWITCH_ID, 8), Ok(7));
        g.ring();
        assert_eq!(g.carry_out(&interface(GROUP_ADD, 2)), Status::Ok);
    }
}

/// A host that keeps a journal for each span between resets.
struct Host {
    guest: Guest,
    journals: Vec<Vec<u8>>,
}

impl Host {
    fn begin(&mut self) {
        let mut buffer = [0; RECORD];
        let header = self.guest.device.header(&mut buffer).expect("room");
        self.journals.push(header.to_vec());
    }

    fn write(&mut self, offset: u64, width: u64, value: u64) {
        if self.guest.set(offset, width, value).reset {
            self.begin();
        }
    }

    fn carry_out(&mut self, payload: &[u8]) -> Status {
        self.guest.post(payload);
        let (status, record) = self.guest.process().expect("a slot");
        self.journals.last_mut().expect("a journal").extend(record);
        status
    }
}

/// The records of a journal: completion and payload.
fn records(journal: &[u8]) -> Vec<(u16, &[u8])> {
    let (mut rest, mut records) = (&journal[6..], Vec::new());
    while !rest.is_empty() {
        let two = |at: usize| u16::from_le_bytes([rest[at], rest[at + 1]]);
        let end = 6 + usize::from(two(2));
        records.push((two(0), &rest[6..end]));
        rest = &rest[end..];
    }
    records
}

/// A journal carried out again on a new device: each record must be completed as it says.
fn replayed(journal: &[u8]) -> Device {
    assert_eq!(journal[..6], *b"RKT\x03\0\x04");
    let mut g = Guest::new();
    for (completed, payload) in records(journal) {
        assert_eq!(g.carry_out(payload).completion(), completed);
    }
    g.device
}

#[test]
fn a_journal_with_a_reset_in_the_middle() {
    let station = [2, 0, 0, 0, 0, 7];
    let mut host = Host {
        guest: Guest::new(),
        journals: Vec::new(),
    };
    host.begin();
    assert_eq!(host.carry_out(&interface(GROUP_ADD, 2)), Status::Ok);
    assert_eq!(host.carry_out(&interface(GROUP_ADD, 2)), Status::Eexist);
    assert_eq!(host.carry_out(&flow_del(9)), Status::Enoent);
    host.write(register::CONTROL, 4, 1);
    host.guest.ring();
    for command in [interface(GROUP_ADD, 2), vlan(FLOW_ADD, 1), bridge(FLOW_ADD, 2, station, 2)] {
        assert_eq!(host.carry_out(&command), Status::Ok);
    }
    let completions: Vec<Vec<u16>> = host.journals.iter().map(|j| records(j).iter().map(|r| r.0).collect()).collect();
    assert_eq!(completions, [[0x8000, 0x8011, 0x8002], [0x8000, 0x8000, 0x8000]]);
    let mut frame = [0; 64];
    frame[..6].copy_from_slice(&station);
    let (mut one, mut other) = ([0; LIST], [0; LIST]);
    let outputs = host.guest.device.frame(1, &frame, &mut one).expect("a frame");
    assert_eq!(outputs.len(), 1);
    assert_eq!(replayed(&host.journals[1]).frame(1, &frame, &mut other), Ok(outputs));
    assert!(replayed(&host.journals[0])
        .frame(1, &frame, &mut other)
        .expect("a frame")
        .is_empty());
}
