//! Each call, accepted and refused. A refused one changes nothing.

use crate::guest::*;
use rocker::{register, Device, Output, Outputs, Refusal, Status, Written, BYTES, HEADER, LIST, RECORD};

const STATION: [u8; 6] = [2, 0, 0, 0, 0, 7];
const ROUTER: [u8; 6] = [2, 0, 0, 0, 0, 1];
const NEIGHBOUR: [u8; 6] = [2, 0xbb, 1, 2, 3, 4];

fn frame_to(mac: [u8; 6]) -> Vec<u8> {
    let mut frame = vec![0; 64];
    frame[..6].copy_from_slice(&mac);
    frame
}

/// A device that bridges to port 2 and routes 192.0.2.0/24 back to port 1.
fn switch() -> Guest {
    let mut g = Guest::new();
    let commands = [
        interface(GROUP_ADD, 1),
        interface(GROUP_ADD, 2),
        vlan(FLOW_ADD, 1),
        bridge(FLOW_ADD, 2, STATION, 2),
        neighbour(GROUP_ADD, 1, ROUTER, NEIGHBOUR),
        termination(FLOW_ADD, 3, ROUTER),
        route(FLOW_ADD, 4, [192, 0, 2, 0], 1),
    ];
    for command in commands {
        assert_eq!(g.carry_out(&command), Status::Ok);
    }
    g
}

#[test]
fn fresh() {
    for ports in [0, 63, 1 << 32, (1 << 32) + 4, u64::MAX] {
        assert_eq!(Device::fresh(ports, 7), Err(Refusal::Port));
    }
    for ports in [1, 62] {
        let d = Device::fresh(ports, 0x0123_4567_89ab_cdef).expect("1 to 62 ports");
        assert_eq!(d.read(register::PORT_PHYS_COUNT, 4), Ok(ports));
        assert_eq!(d.read(register::SWITCH_ID, 8), Ok(0x0123_4567_89ab_cdef));
        assert_eq!(d.read(register::PORT_PHYS_LINK_STATUS, 8), Ok(0));
    }
}

#[test]
fn read() {
    let g = switch();
    let was = g.device.clone();
    assert_eq!(g.device.read(register::SIZE, 4), Ok(8));
    assert_eq!(g.device.read(0, 8), Ok(0xDEAD_BABE_DEAD_BABE));
    for (offset, width) in [
        (register::SIZE, 8),
        (register::CONTROL, 8),
        (2, 4),
        (register::SWITCH_ID, 2),
        (0x2000, 4),
        (u64::MAX, 8),
    ] {
        assert_eq!(g.device.read(offset, width), Err(Refusal::Access));
    }
    assert_eq!(g.device, was);
}

#[test]
fn write() {
    let mut g = switch();
    let nothing = Written::default();
    assert_eq!(g.device.write(register::TEST, 4, 0x8000_0001), Ok(nothing));
    assert_eq!(g.device.read(register::TEST, 4), Ok(2));
    let was = g.device.clone();
    for (offset, width, value, refusal) in [
        (register::SIZE, 4, 3, Refusal::Value),
        (register::BASE_ADDR, 8, 4, Refusal::Value),
        (register::HEAD, 4, 8, Refusal::Value),
        (register::CREDITS, 4, 1, Refusal::Value),
        (register::CONTROL, 8, 1, Refusal::Access),
        (register::HEAD + 1, 4, 1, Refusal::Access),
    ] {
        assert_eq!(g.device.write(offset, width, value), Err(refusal));
        assert_eq!(g.device, was);
    }
}

#[test]
fn link() {
    let mut g = switch();
    assert_eq!(g.device.link(3, false), Ok(()));
    assert_eq!(g.device.read(register::PORT_PHYS_LINK_STATUS, 8), Ok(0b10110));
    let was = g.device.clone();
    for port in [0, 5, (1 << 32) + 1, u64::MAX] {
        assert_eq!(g.device.link(port, true), Err(Refusal::Port));
    }
    assert_eq!(g.device, was);
    assert_eq!(g.device.link(3, true), Ok(()));
    assert_eq!(g.device.read(register::PORT_PHYS_LINK_STATUS, 8), Ok(0b11110));
}

#[test]
fn process() {
    let mut g = Guest::new();
    let payload = interface(GROUP_ADD, 2);
    g.post(&payload);
    let before = g.memory.clone();
    let done = g.device.process(&mut g.memory, &mut g.buffer).expect("a slot");
    assert_eq!((done.raised, done.completed, done.status()), (true, 0x8000, Status::Ok));
    assert_eq!(done.record[..6], [0, 0x80, payload.len() as u8, 0, 0, 0]);
    assert_eq!(done.record[6..], payload);
    let changed: Vec<usize> = (0..before.len()).filter(|&k| before[k] != g.memory[k]).collect();
    assert_eq!(changed, [31]);
    assert_eq!(g.device.process(&mut g.memory, &mut g.buffer), Err(Refusal::Idle));
    g.post(&payload);
    let done = g.device.process(&mut g.memory, &mut g.buffer).expect("a slot");
    assert_eq!((done.raised, done.status()), (false, Status::Eexist));
}

/// What stands in the words of a saved device can be anything: here the word of CREDITS.
fn with_credits(device: &Device, credits: u64) -> Device {
    let mut bytes = device.to_bytes();
    bytes[8 * 13..8 * 14].copy_from_slice(&credits.to_le_bytes());
    let device = Device::from_bytes(&bytes).expect("as many bytes");
    assert_eq!(device.read(register::CREDITS, 4), Ok(credits));
    device
}

#[test]
fn process_refused() {
    let mut g = switch();
    let payload = flow_del(1);
    let refuses = |g: &Guest, mut device: Device, length: usize, room: usize, refusal: Refusal| {
        let was = device.clone();
        let (mut memory, mut buffer) = (g.memory[..length].to_vec(), vec![0x77; room]);
        assert_eq!(device.process(&mut memory, &mut buffer), Err(refusal));
        assert!(device == was && memory == g.memory[..length] && buffer == vec![0x77; room]);
    };
    refuses(&g, g.device.clone(), g.memory.len(), RECORD, Refusal::Idle);
    g.post(&payload);
    refuses(&g, with_credits(&g.device, 65_536), g.memory.len(), RECORD, Refusal::CreditsFull);
    refuses(&g, g.device.clone(), 255, RECORD, Refusal::Descriptor);
    refuses(&g, g.device.clone(), g.memory.len(), 6 + payload.len() - 1, Refusal::Buffer);
    refuses(&g, g.device.clone(), 0, 0, Refusal::Descriptor);
    let mut room = vec![0; 6 + payload.len()];
    assert_eq!(g.device.process(&mut g.memory, &mut room).map(|done| done.status()), Ok(Status::Ok));
}

#[test]
fn frame() {
    let g = switch();
    let mut list = [0x7777; LIST + 1];
    let outputs = g.device.frame(1, &frame_to(STATION), &mut list).expect("a frame");
    let bridged = Output {
        port: 2,
        vlan: VLAN,
        pop_vlan: true,
        source: [0; 6],
        destination: [0; 6],
    };
    assert_eq!(outputs.iter().collect::<Vec<_>>(), [bridged]);
    assert_eq!((outputs.len(), outputs.is_empty(), bridged.macs()), (1, false, None));
    assert_eq!(outputs.numbers(), [2, VLAN, 1, 0, 0, 0, 0, 0, 0]);
    assert!(list[Outputs::NUMBERS..].iter().all(|&number| number == 0x7777));
    let mut routed = frame_to(ROUTER);
    routed[12] = 8;
    routed[30..34].copy_from_slice(&[192, 0, 2, 9]);
    let output = g
        .device
        .frame(1, &routed, &mut list)
        .expect("a frame")
        .iter()
        .next()
        .expect("an output");
    assert_eq!((output.port, output.macs()), (1, Some((ROUTER, NEIGHBOUR))));
    assert!(g.device.frame(2, &frame_to(STATION), &mut list).expect("a frame").is_empty());
}

#[test]
fn frame_refused() {
    let g = switch();
    let refuses = |port: u64, frame: &[u8], length: usize, refusal: Refusal| {
        let mut list = vec![0x7777; length];
        assert_eq!(g.device.frame(port, frame, &mut list), Err(refusal));
        assert_eq!(list, vec![0x7777; length]);
    };
    let frame = frame_to(STATION);
    refuses(0, &frame, LIST, Refusal::Port);
    refuses((1 << 32) + 1, &frame, LIST, Refusal::Port);
    refuses(1, &frame[..13], LIST, Refusal::Frame);
    refuses(1, &[], LIST, Refusal::Frame);
    refuses(1, &[0; 9_217], LIST, Refusal::Frame);
    refuses(1, &frame, LIST - 1, Refusal::List);
    refuses(1, &frame, 0, Refusal::List);
}

#[test]
fn header() {
    let g = switch();
    let mut buffer = [0x77; HEADER + 1];
    assert_eq!(g.device.header(&mut buffer), Ok(&b"RKT\x03\0\x04"[..]));
    assert_eq!(buffer[HEADER], 0x77);
    let mut short = [0x77; HEADER - 1];
    assert_eq!(g.device.header(&mut short), Err(Refusal::Buffer));
    assert_eq!(short, [0x77; HEADER - 1]);
}

/// A device goes on from its saved bytes as it would have; other lengths are no device, and any bytes are one.
#[test]
fn saved_and_loaded() {
    let g = switch();
    let bytes = g.device.to_bytes();
    assert_eq!(bytes.len(), BYTES);
    let mut loaded = Device::from_bytes(&bytes).expect("as many bytes");
    assert_eq!(loaded, g.device);
    assert_eq!(loaded.to_bytes(), bytes);
    assert_eq!(Device::from_bytes(&bytes[1..]), None);
    assert_eq!(Device::from_bytes(&[bytes, vec![0]].concat()), None);
    let (mut one, mut other) = ([0; LIST], [0; LIST]);
    let frame = frame_to(STATION);
    assert_eq!(loaded.frame(1, &frame, &mut one), g.device.frame(1, &frame, &mut other));
    loaded.link(2, false).expect("a port");
    assert_ne!(loaded, g.device);
    let odd = Device::from_bytes(&[0xff; BYTES]).expect("as many bytes");
    assert_eq!(odd.read(register::SWITCH_ID, 8), Ok(u64::MAX));
}

#[test]
fn numbers_of_refusals_and_statuses() {
    let refusals = (1..=9).map(|number| Refusal::of(number).expect("1 to 9"));
    assert!(refusals.zip(1..).all(|(refusal, number)| refusal.number() == number));
    assert_eq!((Refusal::of(0), Refusal::of(10)), (None, None));
    let codes = [0, 2, 6, 12, 17, 22, 90, 95];
    let known: Vec<u16> = (0..=u16::MAX).filter(|&n| Status::of(n).is_some()).collect();
    assert_eq!(known, codes.map(|code| 0x8000 + code));
    assert!(known.iter().all(|&n| Status::of(n).map(Status::completion) == Some(n)));
}
