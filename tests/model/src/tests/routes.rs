//! Request 2026-03: tables 20 and 30, and groups of type 2.

use super::*;
use crate::device::Device;
use crate::journal::{header_of, line, replay};
use crate::tables::{Status, Tables};
use crate::tlv::Version;
use crate::undo::post;

const ROUTER: [u8; 6] = [2, 0x99, 0, 0, 0, 1];
const NEXT: [u8; 6] = [0x02, 0x11, 0x22, 0x33, 0x44, 0x55];
const V4: u16 = 0x0800;
const V6: u16 = 0x86dd;

fn v4(address: [u8; 4], ones: u32) -> (Vec<u8>, Vec<u8>) {
    let mask = u32::MAX.checked_shl(32 - ones).unwrap_or(0);
    (address.to_vec(), mask.to_be_bytes().to_vec())
}

fn v6(first: u16, last: u8, ones: u32) -> (Vec<u8>, Vec<u8>) {
    let address = u128::from(first) << 112 | u128::from(last);
    let mask = u128::MAX.checked_shl(128 - ones).unwrap_or(0);
    (address.to_be_bytes().to_vec(), mask.to_be_bytes().to_vec())
}

/// Four ports, all up and enabled. Port 1 tagged and untagged in VLAN 5, where both EtherTypes are routed; neighbours 1 to 4 behind the ports
/// 2, 0 (the host), 1 and 3, of which 3 pops the tag.
fn device(more: &[Vec<u8>]) -> Device {
    let mut device = Device::fresh(4, 0).unwrap();
    for port in 1..=4 {
        device.link(port, true).unwrap();
    }
    device.write(8, 0x318, u64::MAX).unwrap();
    let mut commands = vec![
        flow_10(1, 1, 1, 0, Some(5), 20),
        flow_10(2, 1, 1, 5, None, 20),
        flow_20(3, 1, V4, ROUTER, 5),
        flow_20(4, 1, V6, ROUTER, 5),
    ];
    for (index, port, pop) in [(1, 2u32, 0), (2, 0, 0), (3, 1, 0), (4, 3, 1)] {
        commands.push(port_group(7 << 16 | port, pop));
        commands.push(route_group(
            7,
            2 << 28 | index,
            7 << 16 | port,
            7,
            ROUTER,
            NEXT,
        ));
    }
    for command in commands.iter().chain(more) {
        assert_eq!(device.tables.obey(command), Status::Ok);
    }
    device
}

/// A frame to the router, with so many bytes behind its EtherType.
fn frame(tag: Option<u16>, to: &[u8], length: usize) -> Vec<u8> {
    let mut frame = [&ROUTER[..], &[2, 0, 0, 0, 0, 9]].concat();
    if let Some(tag) = tag {
        frame.extend([0x81, 0]);
        frame.extend(tag.to_be_bytes());
    }
    let mut header = match to.len() {
        4 => [&[0; 16][..], to].concat(),
        _ => [&[0; 24][..], to].concat(),
    };
    header.resize(length, 0xee);
    let ethertype = if to.len() == 4 { V4 } else { V6 };
    frame.extend(ethertype.to_be_bytes());
    frame.extend(header);
    frame
}

fn sent(device: &Device, port: u64, frame: &[u8]) -> Vec<Vec<u16>> {
    let mut list = [0; 558];
    let count = device.frame(port, frame, &mut list).unwrap();
    list[..9 * count].chunks(9).map(<[u16]>::to_vec).collect()
}

/// The ports that a frame to an IPv4 address goes to.
fn ports(device: &Device, to: [u8; 4]) -> Vec<u16> {
    let copies = sent(device, 1, &frame(None, &to, 20));
    copies.iter().map(|copy| copy[0]).collect()
}

const TO: [u8; 4] = [10, 1, 2, 3];

#[test]
fn a_routed_copy() {
    let device = device(&[
        flow_30(10, 1, v4(TO, 32), Some(0x2000_0001), 60),
        flow_30(11, 1, v6(0x2001, 1, 64), Some(0x2000_0004), 60),
    ]);
    let macs = [0x0299, 0x0000, 0x0001, 0x0211, 0x2233, 0x4455];
    for tag in [None, Some(5), Some(0xf005), Some(0xe000)] {
        let copies = sent(&device, 1, &frame(tag, &TO, 20));
        assert_eq!(copies, [[&[2, 7, 0][..], &macs].concat()]);
        let (address, _) = v6(0x2001, 99, 0);
        let copies = sent(&device, 1, &frame(tag, &address, 40));
        assert_eq!(copies, [[&[3, 7, 1][..], &macs].concat()]);
    }
}

#[test]
fn the_bytes_after_the_ethertype() {
    let device = device(&[
        flow_30(10, 1, v4([0; 4], 0), Some(0x2000_0001), 60),
        flow_30(11, 1, v6(0, 0, 0), Some(0x2000_0001), 60),
    ]);
    for tag in [None, Some(5)] {
        for length in 0..60 {
            let v4 = sent(&device, 1, &frame(tag, &TO, length)).len();
            assert_eq!(v4, usize::from(length >= 20));
            let v6 = sent(&device, 1, &frame(tag, &[0x20; 16], length)).len();
            assert_eq!(v6, usize::from(length >= 40));
        }
    }
}

#[test]
fn a_miss_in_20_is_bridged_and_a_miss_in_30_is_not() {
    let bridged = [
        port_group(0x0005_0004, 0),
        flow_50(50, 1, 5, Some(ROUTER), Some(0x0005_0004), 60),
    ];
    let one = device(&bridged);
    // Routed, and no route.
    assert!(sent(&one, 1, &frame(None, &TO, 20)).is_empty());
    // Too short to be routed, but not bridged either.
    assert!(sent(&one, 1, &frame(None, &TO, 0)).is_empty());
    let mut other = frame(None, &TO, 20);
    other[13] = 6;
    assert_eq!(sent(&one, 1, &other), [[4, 5, 0, 0, 0, 0, 0, 0, 0]]);
    // Of another port, VLAN or MAC.
    let mut without = device(&bridged);
    without
        .tables
        .obey(&payload(5, &[(5, &3u64.to_le_bytes())]));
    let sends = |device: &Device| sent(device, 1, &frame(None, &TO, 20)).len();
    assert_eq!(sends(&without), 1);
    for stop in [
        flow_20(3, 2, V4, ROUTER, 5),
        flow_20(3, 1, V6, ROUTER, 5),
        flow_20(3, 1, V4, NEXT, 5),
        flow_20(3, 1, V4, ROUTER, 6),
    ] {
        let mut device = without.clone();
        assert_eq!(device.tables.obey(&stop), Status::Ok);
        assert_eq!(sends(&device), 1);
    }
    without.tables.obey(&flow_20(3, 1, V4, ROUTER, 5));
    assert_eq!(sends(&without), 0);
}

#[test]
fn the_longest_prefix_then_priority_then_the_lower_cookie() {
    let routes = [
        flow_30(10, 9, v4([0; 4], 0), Some(0x2000_0001), 60),
        flow_30(11, 5, v4([10, 0, 0, 0], 8), Some(0x2000_0002), 60),
        flow_30(12, 1, v4([10, 1, 2, 0], 24), Some(0x2000_0004), 60),
    ];
    for order in [[0, 1, 2], [2, 1, 0], [1, 2, 0]] {
        let device = device(&order.map(|at| routes[at].clone()));
        assert_eq!(ports(&device, TO), [3]);
        assert_eq!(ports(&device, [10, 1, 3, 3]), [0]);
        assert_eq!(ports(&device, [11, 1, 2, 3]), [2]);
    }
    let mut device = device(&routes);
    // The same prefix, with bits outside its mask, and another priority; then a tie.
    let add = |device: &mut Device, cookie, priority, group| {
        let route = flow_30(cookie, priority, v4([10, 1, 2, 77], 24), Some(group), 60);
        assert_eq!(device.tables.obey(&route), Status::Ok);
    };
    add(&mut device, 13, 0, 0x2000_0002);
    assert_eq!(ports(&device, TO), [3]);
    add(&mut device, 14, 2, 0x2000_0001);
    assert_eq!(ports(&device, TO), [2]);
    add(&mut device, 15, 2, 0x2000_0002);
    assert_eq!(ports(&device, TO), [2]);
    add(&mut device, 9, 2, 0x2000_0002);
    assert_eq!(ports(&device, TO), [0]);
}

#[test]
fn routes_that_give_nothing_still_decide() {
    for last in [
        flow_30(20, 0, v4(TO, 32), None, 60),
        flow_30(20, 0, v4(TO, 32), Some(0x2000_0001), 0),
        flow_30(20, 0, v4(TO, 32), Some(0x2abc_def0), 60),
    ] {
        let default = flow_30(10, 9, v4([0; 4], 0), Some(0x2000_0001), 60);
        let device = device(&[default, last]);
        assert!(ports(&device, TO).is_empty());
        assert_eq!(ports(&device, [10, 1, 2, 4]), [2]);
    }
    // A neighbour whose lower group goes, and comes back.
    let mut device = device(&[flow_30(10, 9, v4([0; 4], 0), Some(0x2000_0001), 60)]);
    device
        .tables
        .obey(&payload(9, &[(10, &0x0007_0002u32.to_le_bytes())]));
    assert!(ports(&device, TO).is_empty());
    device.tables.obey(&port_group(0x0007_0002, 1));
    assert_eq!(ports(&device, TO), [2]);
}

#[test]
fn a_routed_frame_may_leave_by_its_ingress_port() {
    let mut device = device(&[flow_30(10, 1, v4([0; 4], 0), Some(0x2000_0003), 60)]);
    assert_eq!(ports(&device, TO), [1]);
    device
        .tables
        .obey(&flow_30(11, 1, v4(TO, 32), Some(0x2000_0001), 60));
    assert_eq!(ports(&device, TO), [2]);
    device.link(2, false).unwrap();
    assert!(ports(&device, TO).is_empty());
    device.link(2, true).unwrap();
    device.write(8, 0x318, 0b11010).unwrap();
    assert!(ports(&device, TO).is_empty());
    device
        .tables
        .obey(&flow_30(12, 2, v4(TO, 32), Some(0x2000_0002), 60));
    assert_eq!(ports(&device, TO), [0]);
}

#[test]
fn prefix_masks_and_unicast_addresses() {
    let status = |address: Vec<u8>, mask: Vec<u8>| {
        Tables::empty(4).obey(&flow_30(1, 1, (address, mask), None, 60))
    };
    for mask in 0..=0xffff_u32 {
        for mask in [mask, mask << 16, !mask, !(mask << 16)] {
            let prefix = mask.leading_ones() + mask.trailing_zeros() >= 32;
            let told = status(TO.to_vec(), mask.to_be_bytes().to_vec());
            assert_eq!(told == Status::Ok, prefix);
        }
    }
    for ones in 0..=128 {
        let (address, mask) = v6(0x2001, 1, ones);
        assert_eq!(status(address.clone(), mask.clone()), Status::Ok);
        for bit in (0..128).filter(|bit| ![ones, ones.wrapping_sub(1)].contains(bit)) {
            let mut other = mask.clone();
            other[bit as usize / 8] ^= 0x80 >> (bit % 8);
            assert_eq!(status(address.clone(), other), Status::Einval);
        }
    }
    for first in 0..=255 {
        for ones in [0, 1, 8, 32] {
            let (address, mask) = v4([first, 1, 2, 3], ones);
            assert_eq!(status(address, mask) == Status::Ok, first < 224);
            let (address, mask) = v6(u16::from(first) << 8, 1, ones);
            assert_eq!(status(address, mask) == Status::Ok, first != 255);
        }
    }
}

#[test]
fn the_other_pair_is_refused_however_it_comes() {
    let fields: Vec<(u32, &[u8])> = vec![
        (1, &[30, 0]),
        (2, &[0; 4]),
        (5, &[0; 8]),
        (23, &[8, 0]),
        (36, &TO),
        (37, &[255; 4]),
        (9, &[60, 0]),
    ];
    assert_eq!(Tables::empty(4).obey(&payload(3, &fields)), Status::Ok);
    for kind in [38, 39] {
        for value in [&[0; 16][..], &[0; 4], &[], &[0; 17]] {
            let mut more = fields.clone();
            more.push((kind, value));
            assert_eq!(Tables::empty(4).obey(&payload(3, &more)), Status::Einval);
            more.push((kind, value));
            assert_eq!(Tables::empty(4).obey(&payload(3, &more)), Status::Einval);
        }
    }
    // Masks of table 20 and the rest of the guide are skipped.
    for kind in [6, 7, 8, 14, 15, 24, 25, 26, 61] {
        let mut more = fields.clone();
        more.extend([(kind, &[1][..]), (kind, &[][..])]);
        assert_eq!(Tables::empty(4).obey(&payload(3, &more)), Status::Ok);
    }
}

#[test]
fn groups_of_type_2() {
    let status = |id, lower, vlan| {
        Tables::empty(4).obey(&route_group(7, id, lower, vlan, [0; 6], [0xff; 6]))
    };
    for id in [0x2000_0000, 0x2fff_ffff, 0x2000_ffff, 0x2fff_0000] {
        assert_eq!(status(id, 0x0005_0002, 5), Status::Ok);
        assert_eq!(status(id, 0x0005_ffff, 5), Status::Ok);
    }
    for (lower, vlan, right) in [
        (0x0001_0000, 1, true),
        (0x0ffe_0000, 4094, true),
        (0x0000_0000, 0, false),
        (0x0fff_0000, 4095, false),
        (0x0005_0002, 6, false),
        (0x1005_0002, 5, false),
        (0x2005_0002, 5, false),
        (0x3005_0002, 5, false),
        (0x4005_0002, 5, false),
    ] {
        assert_eq!(status(0x2000_0007, lower, vlan) == Status::Ok, right);
    }
    // The ID is the key, and names no VLAN.
    let mut tables = Tables::empty(4);
    let put = |tables: &mut Tables, code, lower, vlan| {
        tables.obey(&route_group(code, 0x2000_0000, lower, vlan, NEXT, NEXT))
    };
    assert_eq!(put(&mut tables, 8, 0x0005_0002, 5), Status::Enoent);
    assert_eq!(put(&mut tables, 7, 0x0005_0002, 5), Status::Ok);
    assert_eq!(put(&mut tables, 7, 0x0006_0002, 6), Status::Eexist);
    assert_eq!(put(&mut tables, 8, 0x0006_0002, 6), Status::Ok);
    let del = payload(9, &[(10, &0x2000_0000u32.to_le_bytes())]);
    assert_eq!(tables.obey(&del), Status::Ok);
    assert_eq!(tables.obey(&del), Status::Enoent);
    // Neither a member nor a group of table 50.
    let list = list_group(7, 0x3005_0000, &[0x2005_0001]);
    assert_eq!(tables.obey(&list), Status::Einval);
    let bridge = flow_50(1, 1, 5, Some(NEXT), Some(0x2005_0001), 60);
    assert_eq!(tables.obey(&bridge), Status::Einval);
    for (group, right) in [
        (0x2000_0000, true),
        (0x0005_0002, false),
        (0, false),
        (0x3005_0002, false),
    ] {
        let route = flow_30(1, 1, v4(TO, 32), Some(group), 60);
        assert_eq!(Tables::empty(4).obey(&route) == Status::Ok, right);
    }
}

#[test]
fn where_table_20_and_30_go() {
    let with_goto = |mut payload: Vec<u8>, goto: u8| {
        // GOTO_TBL is the last field of these.
        let at = payload.len() - 8;
        payload[at] = goto;
        Tables::empty(4).obey(&payload)
    };
    for goto in [0, 10, 20, 30, 40, 50, 60] {
        let stop = flow_20(1, 1, V4, ROUTER, 5);
        assert_eq!(with_goto(stop, goto) == Status::Ok, goto == 30);
        let route = flow_30(1, 1, v4(TO, 32), None, 60);
        assert_eq!(
            with_goto(route, goto) == Status::Ok,
            [0, 60].contains(&goto)
        );
    }
}

/// One command of each kind that is new.
fn new_commands() -> Vec<Vec<u8>> {
    vec![
        flow_20(1, 1, V4, ROUTER, 5),
        flow_30(2, 1, v4(TO, 24), Some(0x2000_0001), 60),
        flow_30(3, 1, v6(0xfe80, 1, 10), None, 0),
        route_group(7, 0x2000_0001, 0x0005_0002, 5, ROUTER, NEXT),
        payload(9, &[(10, &0x2000_0001u32.to_le_bytes())]),
    ]
}

#[test]
fn older_versions_have_none_of_it() {
    for version in [Version::One, Version::Two] {
        let expected = [
            Status::Enotsup,
            Status::Enotsup,
            Status::Enotsup,
            Status::Einval,
            Status::Einval,
        ];
        let mut tables = Tables::empty(4);
        let mut trail = header_of(version as u16, 4);
        for (command, expected) in new_commands().iter().zip(expected) {
            let command = crate::generate::written(command, version);
            assert_eq!(tables.execute(&command, version), expected);
            trail.extend(line(expected.stamp(), 0, &command));
        }
        assert!(replay(&trail).is_ok());
        // As a device writes it now each is refused still, for another table or type.
        let script = post::script(&trail).unwrap();
        let night = post::trail(script.as_bytes());
        assert_eq!(night[..6], header_of(3, 4));
        let stamps = |trail: &[u8]| {
            let mut rest = &trail[6..];
            let mut stamps = Vec::new();
            while rest.len() >= 6 {
                let length = usize::from(u16::from_le_bytes([rest[2], rest[3]]));
                stamps.push(rest[..2].to_vec());
                rest = &rest[6 + length..];
            }
            stamps
        };
        assert_eq!(stamps(&night), stamps(&trail));
    }
    let mut tables = Tables::empty(4);
    for command in new_commands() {
        assert_eq!(tables.obey(&command), Status::Ok);
    }
    // Fields that only version 3 lists are skipped in older ones, in a command that has a place for them.
    let mut example = worked_example();
    let more = tlvs(&[(11, &[1]), (23, &[]), (26, &[1]), (36, &[]), (39, &[1])]);
    example[20] += more.len() as u8;
    example.extend(more);
    assert_eq!(Tables::empty(4).execute(&example, Version::Two), Status::Ok);
    assert_eq!(Tables::empty(4).obey(&example), Status::Ok);
}
