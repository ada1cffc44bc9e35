use super::*;
use crate::device::Device;
use crate::registers::Refusal;
use crate::tables::Status;

const MAC: [u8; 6] = [2, 0, 0, 0, 0, 1];
const MANY: [u8; 6] = [0xff; 6];

fn frame(mac: [u8; 6], tag: Option<u16>) -> Vec<u8> {
    let mut frame = mac.to_vec();
    frame.extend([2, 0, 0, 0, 0, 9]);
    if let Some(tag) = tag {
        frame.extend([0x81, 0]);
        frame.extend(tag.to_be_bytes());
    }
    frame.extend([8, 0]);
    frame
}

/// Four ports, all up and enabled, with the given commands carried out.
fn device(commands: &[Vec<u8>]) -> Device {
    let mut device = Device::fresh(4, 0).unwrap();
    for port in 1..=4 {
        device.link(port, true).unwrap();
    }
    device.write(8, 0x318, u64::MAX).unwrap();
    for command in commands {
        assert_eq!(device.tables.obey(command), Status::Ok);
    }
    device
}

fn sent(device: &Device, port: u64, frame: &[u8]) -> Vec<[u16; 3]> {
    let mut list = [0xeeee; 560];
    let count = device.frame(port, frame, &mut list).unwrap();
    assert!(list[9 * count..].iter().all(|place| *place == 0xeeee));
    let copies = list[..9 * count].chunks(9);
    // These are bridged: both MACs are 0.
    assert!(copies.clone().all(|copy| copy[3..] == [0; 6]));
    copies.map(|c| [c[0], c[1], c[2]]).collect()
}

/// Port 1 untagged to VLAN 5, and a unicast way to port 2.
fn unicast() -> Vec<Vec<u8>> {
    vec![
        flow_10(1, 1, 1, 0, Some(5), 20),
        flow_10(2, 1, 1, 5, None, 20),
        flow_50(3, 1, 5, Some(MAC), Some(0x0005_0002), 60),
        port_group(0x0005_0002, 1),
    ]
}

#[test]
fn the_way_of_a_frame() {
    let device = device(&unicast());
    assert_eq!(sent(&device, 1, &frame(MAC, None)), [[2, 5, 1]]);
    assert_eq!(sent(&device, 1, &frame(MAC, Some(5))), [[2, 5, 1]]);
    // Only the low 12 bits of the tag count, and a tag of VLAN 0 is VLAN 0.
    assert_eq!(sent(&device, 1, &frame(MAC, Some(0xf005))), [[2, 5, 1]]);
    assert_eq!(sent(&device, 1, &frame(MAC, Some(0xe000))), [[2, 5, 1]]);
    assert!(sent(&device, 1, &frame(MAC, Some(6))).is_empty());
    assert!(sent(&device, 1, &frame(MANY, None)).is_empty());
    assert!(sent(&device, 3, &frame(MAC, None)).is_empty());
}

#[test]
fn what_is_a_frame() {
    let device = device(&[]);
    let answer = |bytes: &[u8]| device.frame(1, bytes, &mut [0; 558]).err();
    assert_eq!(answer(&[0; 13]), Some(Refusal::Frame));
    assert_eq!(answer(&[0; 14]), None);
    assert_eq!(answer(&[0; 9_216]), None);
    assert_eq!(answer(&[0; 9_217]), Some(Refusal::Frame));
    let tagged = [frame(MAC, Some(1)), vec![0; 9]].concat();
    assert_eq!(answer(&tagged[..14]), Some(Refusal::Frame));
    assert_eq!(answer(&tagged[..17]), Some(Refusal::Frame));
    assert_eq!(answer(&tagged[..18]), None);
    assert_eq!(answer(&[]), Some(Refusal::Frame));
}

#[test]
fn the_lower_answer_is_given() {
    let device = device(&[]);
    assert_eq!(device.frame(0, &[], &mut []), Err(Refusal::Port));
    assert_eq!(device.frame(5, &[], &mut []), Err(Refusal::Port));
    assert_eq!(
        device.frame(1 << 32 | 4, &frame(MAC, None), &mut [0; 558]),
        Err(Refusal::Port)
    );
    assert_eq!(device.frame(4, &[], &mut []), Err(Refusal::Frame));
    assert_eq!(
        device.frame(4, &frame(MAC, None), &mut [0; 557]),
        Err(Refusal::List)
    );
    // A port that is down does not hide a short list.
    let down = Device::fresh(4, 0).unwrap();
    assert_eq!(
        down.frame(4, &frame(MAC, None), &mut [0; 557]),
        Err(Refusal::List)
    );
    assert_eq!(down.frame(4, &frame(MAC, None), &mut [0; 558]), Ok(0));
}

#[test]
fn ports_that_are_down_or_not_enabled() {
    let whole = device(&unicast());
    for port in [1, 2] {
        let mut device = whole.clone();
        device.link(port, false).unwrap();
        assert!(sent(&device, 1, &frame(MAC, None)).is_empty());
        let mut device = whole.clone();
        device.write(8, 0x318, !(1 << port)).unwrap();
        assert!(sent(&device, 1, &frame(MAC, None)).is_empty());
    }
}

#[test]
fn table_0_compares_under_the_mask() {
    let mut device = device(&unicast());
    // 0xfffffff1 and port 1 agree in the low three bits.
    device.tables.obey(&flow_0(10, 1, 0xffff_fff1, 7, 0));
    assert!(sent(&device, 1, &frame(MAC, None)).is_empty());
    device.tables.obey(&flow_0(11, 2, 0x99, 0, 10));
    assert_eq!(sent(&device, 1, &frame(MAC, None)).len(), 1);
    device.tables.obey(&flow_0(12, 0x8000_0000, 2, 1, 0));
    assert_eq!(sent(&device, 1, &frame(MAC, None)).len(), 1);
    device.tables.obey(&flow_0(13, 0x8000_0000, 3, 1, 0));
    assert!(sent(&device, 1, &frame(MAC, None)).is_empty());
}

#[test]
fn ties_go_to_the_lower_cookie_in_every_table() {
    for order in [[20, 21], [21, 20]] {
        let mut one = device(&unicast());
        for cookie in order {
            one.tables
                .obey(&flow_0(cookie, 5, 1, 1, if cookie == 20 { 10 } else { 0 }));
        }
        assert_eq!(sent(&one, 1, &frame(MAC, None)).len(), 1);
        let mut two = device(&[flow_50(1, 1, 7, None, Some(0x4007_0000), 60)]);
        for cookie in order {
            let vlan = if cookie == 20 { 7 } else { 8 };
            two.tables.obey(&flow_10(cookie, 5, 1, 0, Some(vlan), 20));
        }
        two.tables.obey(&list_group(7, 0x4007_0000, &[0x0007_0000]));
        two.tables.obey(&port_group(0x0007_0000, 0));
        assert_eq!(sent(&two, 1, &frame(MAC, None)), [[0, 7, 0]]);
        let mut three = device(&unicast());
        three.tables.obey(&port_group(0x0005_0003, 0));
        for cookie in order {
            let group = if cookie == 20 {
                0x0005_0003
            } else {
                0x0005_0002
            };
            three
                .tables
                .obey(&flow_50(cookie, 9, 5, Some(MAC), Some(group), 60));
        }
        assert_eq!(sent(&three, 1, &frame(MAC, None)), [[3, 5, 0]]);
    }
}

#[test]
fn goto_0_drops_in_every_table() {
    for replaced in [
        flow_0(9, 1, 0, 0, 0),
        flow_10(9, 9, 1, 0, Some(5), 0),
        flow_50(9, 9, 5, Some(MAC), Some(0x0005_0002), 0),
    ] {
        let mut device = device(&unicast());
        device.tables.obey(&replaced);
        assert!(sent(&device, 1, &frame(MAC, None)).is_empty());
    }
}

#[test]
fn the_highest_priority_decides_even_if_it_gives_nothing() {
    let mut device = device(&unicast());
    device.tables.obey(&flow_50(9, 2, 5, None, None, 60));
    assert!(sent(&device, 1, &frame(MAC, None)).is_empty());
    device
        .tables
        .obey(&flow_50(10, 3, 5, Some(MAC), Some(0x0005_0004), 60));
    // Group 0x00050004 is only named.
    assert!(sent(&device, 1, &frame(MAC, None)).is_empty());
    device.tables.obey(&port_group(0x0005_0004, 0));
    assert_eq!(sent(&device, 1, &frame(MAC, None)), [[4, 5, 0]]);
}

#[test]
fn floods_keep_their_order_and_leave_ports_out() {
    let mut device = device(&[
        flow_10(1, 1, 1, 5, None, 20),
        flow_50(2, 1, 5, None, Some(0x4005_0000), 60),
        list_group(
            7,
            0x4005_0000,
            &[
                0x0005_0004,
                0x0005_0001,
                0x0005_0000,
                0x0005_0003,
                0x0005_0002,
            ],
        ),
        port_group(0x0005_0000, 1),
        port_group(0x0005_0001, 0),
        port_group(0x0005_0002, 0),
        port_group(0x0005_0004, 1),
    ]);
    // Member 3 does not exist and port 1 is where the frame came in.
    let tagged = frame(MAC, Some(5));
    assert_eq!(sent(&device, 1, &tagged), [[4, 5, 1], [0, 5, 1], [2, 5, 0]]);
    device.link(4, false).unwrap();
    assert_eq!(sent(&device, 1, &tagged), [[0, 5, 1], [2, 5, 0]]);
    device.write(8, 0x318, 0b10010).unwrap();
    assert_eq!(sent(&device, 1, &tagged), [[0, 5, 1]]);
}

#[test]
fn vlan_4095_matches_nothing() {
    let device = device(&unicast());
    assert!(sent(&device, 1, &frame(MAC, Some(0x0fff))).is_empty());
}
