use super::*;
use crate::console::{bytes, hex, number, Console, Execute, RegisterCalls};
use crate::device::{Device, Worked};
use crate::registers::Refusal;

/// A ring of 8 at address 64 in 8,192 bytes of memory.
fn ring() -> (Device, Vec<u8>) {
    let mut device = Device::fresh(4, 1).unwrap();
    device.write(8, 0x1000, 64).unwrap();
    device.write(4, 0x1008, 8).unwrap();
    (device, vec![0; 8_192])
}

fn describe(memory: &mut [u8], slot: usize, address: u64, buf_size: u16, tlv_size: u16) {
    let at = 64 + 32 * slot;
    memory[at..at + 8].copy_from_slice(&address.to_le_bytes());
    memory[at + 16..at + 18].copy_from_slice(&buf_size.to_le_bytes());
    memory[at + 18..at + 20].copy_from_slice(&tlv_size.to_le_bytes());
}

fn read(device: &Device, offset: u64) -> u64 {
    device.read(4, offset).unwrap()
}

/// The line that one slot with this descriptor gives.
fn line_of(address: u64, buf_size: u16, tlv_size: u16) -> Vec<u8> {
    let (mut device, mut memory) = ring();
    describe(&mut memory, 0, address, buf_size, tlv_size);
    device.write(4, 0x100c, 1).unwrap();
    let mut room = vec![0xaa; 5_000];
    let done = device.work(&mut memory, &mut room).unwrap();
    assert!(room[done.length..].iter().all(|byte| *byte == 0xaa));
    assert_eq!(memory[64 + 30..64 + 32], room[..2]);
    room[..done.length].to_vec()
}

#[test]
fn a_consumed_slot() {
    let (mut device, mut memory) = ring();
    let payload = worked_example();
    memory[1024..1024 + 72].copy_from_slice(&payload);
    describe(&mut memory, 0, 1024, 72, 72);
    memory[64 + 30..64 + 32].copy_from_slice(&[0xff, 0xff]);
    device.write(4, 0x100c, 1).unwrap();
    let before = (device.clone(), memory.clone());
    let mut room = vec![0; 77];
    assert_eq!(device.work(&mut memory, &mut room), Err(Refusal::Room));
    assert_eq!((device.clone(), memory.clone()), before);
    let mut room = vec![0; 78];
    let done = Worked {
        raised: true,
        length: 78,
    };
    assert_eq!(device.work(&mut memory, &mut room), Ok(done));
    assert_eq!(room, crate::journal::line(0x8000, 0, &payload));
    let mut expected = before.1;
    expected[64 + 30] = 0;
    expected[64 + 31] = 0x80;
    assert_eq!(memory, expected);
    assert_eq!((read(&device, 0x1010), read(&device, 0x1018)), (1, 1));
    assert_eq!(device.work(&mut memory, &mut room), Err(Refusal::Idle));
    assert_eq!(device.tables.groups.len(), 1);
}

#[test]
fn descriptor_faults() {
    let stamp = |address, buf_size, tlv_size| {
        let line = line_of(address, buf_size, tlv_size);
        (
            u16::from_le_bytes([line[0], line[1]]) & 0xfff,
            line.len() - 6,
        )
    };
    assert_eq!(stamp(1025, 8, 8), (6, 0));
    assert_eq!(stamp(1028, 8, 9), (6, 0));
    assert_eq!(stamp(8_184, 8, 8), (22, 8));
    assert_eq!(stamp(8_184, 9, 8), (6, 0));
    assert_eq!(stamp(8_192, 0, 0), (22, 0));
    assert_eq!(stamp(8_200, 0, 0), (6, 0));
    assert_eq!(stamp(u64::MAX - 7, 8, 8), (6, 0));
    assert_eq!(stamp(u64::MAX - 7, 16, 8), (6, 0));
    assert_eq!(stamp(1024, 8, 9), (22, 0));
    assert_eq!(stamp(1024, 4_096, 4_097), (22, 0));
    assert_eq!(stamp(1024, 4_097, 4_097), (90, 0));
    assert_eq!(stamp(1024, 4_097, 4_096), (22, 4_096));
    assert_eq!(stamp(1024, 4_096, 4_096), (22, 4_096));
}

#[test]
fn refusals_of_work_in_their_order() {
    let (mut device, mut memory) = ring();
    let mut work = |device: &mut Device, room: usize| device.work(&mut memory, &mut vec![0; room]);
    assert_eq!(work(&mut device, 0), Err(Refusal::Idle));
    device.write(4, 0x100c, 7).unwrap();
    device.registers.ring.credits = 65_536;
    device.registers.ring.base.value = u64::MAX - 7;
    assert_eq!(work(&mut device, 0), Err(Refusal::Credits));
    device.registers.ring.credits = 65_535;
    assert_eq!(work(&mut device, 0), Err(Refusal::Descriptor));
    device.registers.ring.base.value = 8_192 - 24;
    assert_eq!(work(&mut device, 0), Err(Refusal::Descriptor));
    device.registers.ring.base.value = 8_192 - 32;
    assert_eq!(work(&mut device, 5), Err(Refusal::Room));
    assert_eq!(work(&mut device, 6).map(|done| done.raised), Ok(false));
    assert_eq!(read(&device, 0x1018), 65_536);
    assert_eq!(work(&mut device, 6), Err(Refusal::Credits));
}

#[test]
fn without_a_ring_there_is_no_work() {
    let mut device = Device::fresh(1, 0).unwrap();
    assert_eq!(device.work(&mut [0; 64], &mut [0; 64]), Err(Refusal::Idle));
}

#[test]
fn n_slots_then_none() {
    let (mut device, mut memory) = ring();
    for round in 0..5u32 {
        let head = (device.registers.ring.head + 7) % 8;
        device.write(4, 0x100c, u64::from(head)).unwrap();
        for k in 0..7 {
            let mut room = [0; 6];
            assert!(device.work(&mut memory, &mut room).is_ok());
            assert_eq!(u32::from(room[4]), (7 * round + k) % 8);
        }
        assert_eq!(device.work(&mut memory, &mut [0; 6]), Err(Refusal::Idle));
    }
    assert_eq!(read(&device, 0x1018), 35);
}

#[test]
fn the_payload_is_recorded_as_it_was_before_the_stamp() {
    let (mut device, mut memory) = ring();
    // The payload is a TLV over the descriptor itself and a command behind it.
    let command = worked_example();
    describe(&mut memory, 0, 56, 40 + 72, 40 + 72);
    memory[56..64].copy_from_slice(&[99, 0, 0, 0, 40, 0, 0, 0]);
    memory[94..96].copy_from_slice(&[0x34, 0x12]);
    memory[96..96 + 72].copy_from_slice(&command);
    let before = memory[56..56 + 112].to_vec();
    device.write(4, 0x100c, 1).unwrap();
    let mut room = vec![0; 200];
    let done = device.work(&mut memory, &mut room).unwrap();
    assert_eq!(
        room[..done.length],
        crate::journal::line(0x8000, 0, &before)
    );
    assert_eq!(memory[94..96], [0, 0x80]);
}

#[test]
fn a_payload_that_begins_with_its_descriptor_has_a_length_of_0() {
    let (mut device, mut memory) = ring();
    describe(&mut memory, 0, 64, 32, 32);
    memory[94..96].copy_from_slice(&[0x34, 0x12]);
    let before = memory[64..96].to_vec();
    device.write(4, 0x100c, 1).unwrap();
    let mut room = vec![0; 38];
    device.work(&mut memory, &mut room).unwrap();
    assert_eq!(room, crate::journal::line(0x8016, 0, &before));
}

#[test]
fn the_old_payload_on_the_device() {
    let (mut device, mut memory) = ring();
    memory[1024..1024 + 72].copy_from_slice(&old_example());
    describe(&mut memory, 0, 1024, 72, 72);
    device.write(4, 0x100c, 1).unwrap();
    let mut room = vec![0; 78];
    device.work(&mut memory, &mut room).unwrap();
    assert_eq!(room, crate::journal::line(0x8016, 0, &old_example()));
    assert!(device.tables.groups.is_empty());
}

#[test]
fn resets_empty_the_tables() {
    let (mut device, _) = ring();
    device.tables.obey(&worked_example());
    device.link(3, true).unwrap();
    device.write(4, 0x1014, 1).unwrap();
    assert_eq!(device.tables.groups.len(), 1);
    device.write(4, 0x300, 2).unwrap();
    assert_eq!(device.tables.groups.len(), 1);
    device.write(4, 0x300, 1).unwrap();
    let mut expected = Device::fresh(4, 1).unwrap();
    expected.link(3, true).unwrap();
    assert_eq!(device, expected);
}

#[test]
fn fresh_link_and_header() {
    for ports in [0, 63, 1 << 32 | 4, u64::MAX] {
        assert_eq!(Device::fresh(ports, 0).err(), Some(Refusal::Port));
    }
    let mut device = Device::fresh(62, 0).unwrap();
    assert_eq!(device.link(62, true), Ok(()));
    assert_eq!(device.read(8, 0x310), Ok(1 << 62));
    for port in [0, 63, 64, 1 << 32 | 1] {
        assert_eq!(device.link(port, true), Err(Refusal::Port));
    }
    assert_eq!(device.link(62, false), Ok(()));
    assert_eq!(device.read(8, 0x310), Ok(0));
    let mut room = [9; 8];
    assert_eq!(device.header(&mut room[..5]), Err(Refusal::Room));
    assert_eq!(room, [9; 8]);
    assert_eq!(device.header(&mut room), Ok(6));
    assert_eq!(room, [b'R', b'K', b'T', 3, 0, 62, 9, 9]);
}

#[test]
fn numbers_and_bytes() {
    assert_eq!(number("0x10"), Ok(16));
    assert_eq!(number("0xfF"), Ok(255));
    assert_eq!(number("007"), Ok(7));
    assert_eq!(number("18446744073709551615"), Ok(u64::MAX));
    for bad in [
        "",
        "0x",
        "+1",
        "-1",
        "1_0",
        "0X1",
        "1f",
        "0xg",
        "18446744073709551616",
        "0x10000000000000000",
    ] {
        assert!(number(bad).is_err(), "{bad}");
    }
    assert_eq!(bytes("-"), Ok(vec![]));
    assert_eq!(bytes("0aF0"), Ok(vec![0x0a, 0xf0]));
    for bad in ["", "0", "0x", "--", "zz", "000"] {
        assert!(bytes(bad).is_err(), "{bad}");
    }
    assert_eq!(hex(&[]), "-");
    assert_eq!(hex(&[0x0a, 0xf0]), "0af0");
}

/// A script with what each line prints; `!` for an error, empty for nothing.
#[track_caller]
fn script(lines: &[(&str, &str)]) {
    let mut console = Console::default();
    for (line, expected) in lines {
        let printed = match console.line(line.as_bytes()) {
            Ok(Some(text)) => text,
            Ok(None) => String::new(),
            Err(_) => "!".to_string(),
        };
        assert_eq!(printed, *expected, "{line}");
    }
}

#[test]
fn the_console() {
    let payload = hex(&worked_example());
    script(&[
        ("", ""),
        ("# nothing", ""),
        ("read 4 0", "!"),
        ("work 6", "!"),
        ("peek 0 0", "-"),
        ("memory 256", ""),
        ("fresh 63 1", "7"),
        ("read 4 0", "!"),
        ("fresh 4 0x10", "0"),
        ("fresh 0 1", "7"),
        ("read 8 0x320", "0 16"),
        ("read 4 0", "0 3735927486"),
        ("read 8 0x10", "1 0"),
        ("link 2 1", "0"),
        ("link 2 2", "!"),
        ("link 5 1", "7"),
        ("write 4 0x1008 2", "0 -"),
        ("write 4 0x1008 3", "2 -"),
        ("write 4 0x100c 1", "0 -"),
        (&format!("poke 64 {payload}"), ""),
        ("poke 0 4000000000000000000000000000000048004800", ""),
        ("work 77", "6 - -"),
        ("work 78", &format!("0 0 008048000000{payload}")),
        ("work 78", "3 - -"),
        ("peek 28 4", "00000080"),
        ("write 4 0x1018 0", "0 0"),
        ("write 4 0x1018 1", "0 -"),
        ("write 4 0x1018 1", "2 -"),
        ("frame 2 000000000000000000000000080", "!"),
        ("frame 2 0000000000000000000000000800", "0 0"),
        ("frame 2 0000000000000000000000000800 557", "9 0"),
        ("frame 2 0000000000000000000000000800 558", "0 0"),
        ("frame 2 0000000000000000000000000800 1024", "0 0"),
        ("frame 2 0000000000000000000000000800 1025", "!"),
        ("frame 2 -", "8 0"),
        ("frame 0x100000002 -", "7 0"),
        ("header 5", "6 -"),
        ("header 6", "0 524b54030004"),
        ("peek 256 0", "-"),
        ("peek 257 0", "!"),
        ("peek 255 2", "!"),
        ("poke 256 -", ""),
        ("poke 255 0000", "!"),
        ("memory 1048577", "!"),
        ("work 65537", "!"),
        ("read  4 0", "!"),
        ("read 4 0 ", "!"),
        ("fresh 4", "!"),
    ]);
    let mut console = Console::default();
    assert!(console.line(&[b'#'; 65_535]).is_ok());
    assert!(console.line(&[b'#'; 65_536]).is_err());
    assert!(console.line(&[b'#', 0xff]).is_ok());
    assert!(console.line(&[0xff]).is_err());
}

#[test]
fn line_ends() {
    script(&[
        ("fresh 4 1\n", "0"),
        ("read 8 0x320\r\n", "0 1"),
        ("read 8 0x320\r\r\n", "!"),
        ("read 8 0x320\r", "!"),
        ("read 8\r 0x320\r\n", "!"),
        ("\n", ""),
        ("\r\n", ""),
        ("\r\r\n", "!"),
        ("\r", "!"),
        ("#\r\n", ""),
    ]);
    let mut console = Console::default();
    let mut ended = |count, end: &str| console.line(&[&vec![b'#'; count], end.as_bytes()].concat());
    assert!(ended(65_535, "\n").is_ok());
    assert!(ended(65_536, "\n").is_err());
    assert!(ended(65_534, "\r\n").is_ok());
    assert!(ended(65_535, "\r\n").is_err());
}

#[test]
fn register_calls_alone() {
    let mut calls = RegisterCalls::default();
    let mut line = |text: &str| calls.line(text.as_bytes());
    assert_eq!(line("fresh 4 0x10"), Ok(Some("0".to_string())));
    assert_eq!(line("link 5 1"), Ok(Some("7".to_string())));
    assert_eq!(line("read 8 0x320"), Ok(Some("0 16".to_string())));
    assert_eq!(line("write 4 0x1008 3"), Ok(Some("2 -".to_string())));
    for other in [
        "memory 8",
        "poke 0 -",
        "peek 0 0",
        "work 6",
        "frame 1 -",
        "header 6",
    ] {
        assert!(line(other).is_err(), "{other}");
    }
    assert_eq!(line(&format!("#{}", "-".repeat(255))), Ok(None));
    assert!(line(&format!("#{}", "-".repeat(256))).is_err());
    assert_eq!(line(""), Ok(None));
}

#[test]
fn payloads_alone() {
    let payload = hex(&worked_example());
    let mut execute = Execute::default();
    let mut line = |text: &str| execute.line(text.as_bytes());
    assert!(line(&format!("payload {payload}")).is_err());
    assert_eq!(line("ports 4"), Ok(None));
    assert_eq!(
        line(&format!("payload {payload}")),
        Ok(Some("0 0 1".to_string()))
    );
    assert_eq!(
        line(&format!("payload {payload}")),
        Ok(Some("17 0 1".to_string()))
    );
    assert_eq!(line("payload -"), Ok(Some("22 0 1".to_string())));
    assert_eq!(line("ports 1"), Ok(None));
    assert_eq!(
        line(&format!("payload {payload}")),
        Ok(Some("22 0 0".to_string()))
    );
    assert!(line("ports 0").is_err());
    assert!(line("ports 63").is_err());
}
