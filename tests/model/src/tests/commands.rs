use super::*;
use crate::tables::{Group, Match, Status, Tables};
use crate::tlv::{Place, Version};

const EVEN: [u8; 6] = [2, 0, 0, 0, 0, 1];
const ODD: [u8; 6] = [3, 0, 0, 0, 0, 1];

fn tables() -> Tables {
    Tables::empty(4)
}

/// The status on empty tables of a 4-port device; any fault changes nothing.
fn status(payload: &[u8]) -> Status {
    let mut tables = tables();
    let status = tables.obey(payload);
    if status != Status::Ok {
        assert_eq!(tables, self::tables());
    }
    status
}

#[test]
fn p12_p13_p14_the_worked_payload() {
    let mut tables = tables();
    assert_eq!(tables.obey(&worked_example()), Status::Ok);
    assert_eq!(tables.groups[&0x0005_0002], Group::Port { port: 2, pop: 1 });
    assert_eq!(tables.obey(&worked_example()), Status::Eexist);
    assert_eq!(Tables::empty(1).obey(&worked_example()), Status::Einval);
    assert_eq!(worked_example(), port_group(0x0005_0002, 1));
}

#[test]
fn top_faults() {
    let info = tlvs(&[(5, &[0; 8])]);
    let code: &[u8] = &[5, 0];
    assert_eq!(status(&tlvs(&[(1, code), (2, &info)])), Status::Enoent);
    assert_eq!(status(&tlvs(&[(2, &info), (1, code)])), Status::Enoent);
    assert_eq!(status(&[]), Status::Einval);
    assert_eq!(status(&tlvs(&[(1, code)])), Status::Einval);
    assert_eq!(status(&tlvs(&[(2, &info)])), Status::Einval);
    assert_eq!(
        status(&tlvs(&[(1, code), (1, code), (2, &info)])),
        Status::Einval
    );
    assert_eq!(
        status(&tlvs(&[(1, code), (2, &info), (2, &info)])),
        Status::Einval
    );
    assert_eq!(status(&tlvs(&[(1, &[5]), (2, &info)])), Status::Einval);
    assert_eq!(
        status(&tlvs(&[(1, &[5, 0, 0, 0]), (2, &info)])),
        Status::Einval
    );
    // Unlisted types at the top are skipped, also twice.
    assert_eq!(
        status(&tlvs(&[(3, &[1]), (1, code), (3, &[]), (2, &info)])),
        Status::Enoent
    );
    // One TLV that is not whole spoils the region.
    let mut long = tlvs(&[(1, code), (2, &info)]);
    long.extend([0; 4]);
    assert_eq!(status(&long), Status::Einval);
}

#[test]
fn unknown_commands_come_after_the_top_and_before_the_nest() {
    for code in [0u16, 1, 2, 6, 10, 0x0300, 0x0103, 0xffff] {
        assert_eq!(
            status(&tlvs(&[(1, &code.to_le_bytes()), (2, &[1; 3])])),
            Status::Enotsup
        );
        assert_eq!(status(&tlvs(&[(1, &code.to_le_bytes())])), Status::Einval);
    }
    for code in [3u16, 4, 5, 7, 8, 9] {
        assert_eq!(
            status(&tlvs(&[(1, &code.to_le_bytes()), (2, &[1; 3])])),
            Status::Einval
        );
        assert_eq!(status(&payload(code, &[])), Status::Einval);
    }
}

#[test]
fn a_nest_must_itself_be_well_formed() {
    let mut info = tlvs(&[(5, &[0; 8])]);
    info.truncate(12);
    assert_eq!(status(&tlvs(&[(1, &[5, 0]), (2, &info)])), Status::Einval);
}

#[test]
fn a_table_that_is_not_there_comes_before_other_fields() {
    for table in [1u16, 40, 60, 0x0a00, 0x1400, 0x1e00, 0xffff] {
        let table = table.to_le_bytes();
        assert_eq!(status(&payload(3, &[(1, &table)])), Status::Enotsup);
        assert_eq!(
            status(&payload(4, &[(1, &table), (2, &[]), (2, &[])])),
            Status::Enotsup
        );
        assert_eq!(
            status(&payload(3, &[(1, &table), (1, &table)])),
            Status::Einval
        );
        assert_eq!(
            status(&payload(3, &[(1, &[table[0], table[1], 0])])),
            Status::Einval
        );
        // Del does not read it.
        assert_eq!(
            status(&payload(5, &[(1, &table), (1, &[]), (5, &[0; 8])])),
            Status::Enoent
        );
    }
}

#[test]
fn required_fields_of_each_command() {
    let commands = [
        flow_0(1, 1, 1, 1, 10),
        flow_10(1, 1, 1, 0, Some(1), 20),
        flow_10(1, 1, 1, 5, None, 20),
        worked_example(),
        list_group(7, 0x3005_0000, &[0x0005_0001]),
    ];
    for command in commands {
        assert_eq!(status(&command), Status::Ok);
        let code = u16::from_le_bytes([command[8], command[9]]);
        let fields: Vec<(u32, Vec<u8>)> =
            crate::tlv::split(&command[24..], Version::Two, Place::Info)
                .unwrap()
                .iter()
                .map(|tlv| (tlv.kind, tlv.value.to_vec()))
                .collect();
        for at in 0..fields.len() {
            let lent = |fields: &[(u32, Vec<u8>)]| {
                let fields: Vec<(u32, &[u8])> = fields.iter().map(|(k, v)| (*k, &v[..])).collect();
                status(&payload(code, &fields))
            };
            let mut missing = fields.clone();
            missing.remove(at);
            assert_eq!(lent(&missing), Status::Einval);
            let mut twice = fields.clone();
            twice.push(fields[at].clone());
            assert_eq!(lent(&twice), Status::Einval);
            let mut wide = fields.clone();
            wide[at].1.push(0);
            assert_eq!(lent(&wide), Status::Einval);
        }
    }
}

#[test]
fn fields_that_are_not_used_are_skipped() {
    // For a port group, member fields and flow fields mean nothing.
    let extra = payload(
        7,
        &[
            (12, &[1]),
            (12, &[2, 2, 2]),
            (13, &[9; 5]),
            (1, &[]),
            (24, &[0]),
            (10, &0x0005_0002u32.to_le_bytes()),
            (8, &2u32.to_le_bytes()),
            (43, &[0]),
            (99, &[1, 2, 3]),
            (99, &[]),
        ],
    );
    assert_eq!(status(&extra), Status::Ok);
    // For table 0, the fields of the other tables.
    let mut flow = flow_0(1, 1, 1, 1, 10)[24..].to_vec();
    flow.extend(tlvs(&[
        (14, &[1]),
        (14, &[]),
        (19, &[0; 9]),
        (24, &[]),
        (10, &[0]),
        (8, &[]),
    ]));
    assert_eq!(status(&tlvs(&[(1, &[3, 0]), (2, &flow)])), Status::Ok);
    // The times are used, so they are checked where they come.
    flow.extend(tlvs(&[(3, &[1, 0])]));
    assert_eq!(status(&tlvs(&[(1, &[3, 0]), (2, &flow)])), Status::Einval);
}

#[test]
fn the_times_default_to_zero_and_are_kept() {
    let mut tables = tables();
    assert_eq!(tables.obey(&flow_0(1, 1, 1, 1, 10)), Status::Ok);
    assert_eq!(
        (tables.flows[&1].hard_time, tables.flows[&1].idle_time),
        (0, 0)
    );
    let mut flow = flow_0(2, 1, 1, 1, 10)[24..].to_vec();
    flow.extend(tlvs(&[(3, &[1, 2, 0, 0]), (4, &[3, 0, 0, 0x80])]));
    assert_eq!(tables.obey(&tlvs(&[(1, &[3, 0]), (2, &flow)])), Status::Ok);
    assert_eq!(
        (tables.flows[&2].hard_time, tables.flows[&2].idle_time),
        (0x201, 0x8000_0003)
    );
}

#[test]
fn table_0() {
    for (goto, expected) in [
        (10, Status::Ok),
        (0, Status::Ok),
        (20, Status::Einval),
        (0x0a00, Status::Einval),
    ] {
        assert_eq!(status(&flow_0(1, 1, 99, 0, goto)), expected);
    }
}

#[test]
fn table_10() {
    let flow = |port, vlan, new, goto| status(&flow_10(1, 1, port, vlan, new, goto));
    assert_eq!(flow(4, 4094, None, 20), Status::Ok);
    assert_eq!(flow(1, 1, None, 0), Status::Ok);
    assert_eq!(flow(0, 1, None, 20), Status::Einval);
    assert_eq!(flow(5, 1, None, 20), Status::Einval);
    assert_eq!(flow(1, 4095, None, 20), Status::Einval);
    assert_eq!(flow(1, 4096, None, 20), Status::Einval);
    assert_eq!(flow(1, 1, None, 10), Status::Einval);
    assert_eq!(flow(1, 1, None, 50), Status::Einval);
    // The new VLAN stands exactly beside VLAN 0.
    assert_eq!(flow(1, 0, None, 20), Status::Einval);
    assert_eq!(flow(1, 1, Some(1), 20), Status::Einval);
    assert_eq!(flow(1, 0, Some(1), 20), Status::Ok);
    assert_eq!(flow(1, 0, Some(4094), 20), Status::Ok);
    assert_eq!(flow(1, 0, Some(0), 20), Status::Einval);
    assert_eq!(flow(1, 0, Some(4095), 20), Status::Einval);
}

#[test]
fn table_50() {
    let flow = |vlan, mac, group, goto| status(&flow_50(1, 1, vlan, mac, group, goto));
    assert_eq!(flow(1, None, None, 60), Status::Ok);
    assert_eq!(flow(4094, None, None, 0), Status::Ok);
    assert_eq!(flow(0, None, None, 60), Status::Einval);
    assert_eq!(flow(4095, None, None, 60), Status::Einval);
    assert_eq!(flow(1, None, None, 20), Status::Einval);
    assert_eq!(flow(1, None, None, 50), Status::Einval);
    for (mac, kinds) in [(Some(EVEN), &[0][..]), (Some(ODD), &[3, 4]), (None, &[4])] {
        for kind in 0..16 {
            // The low bits of a group that is only named are not checked.
            let expected = if kinds.contains(&kind) {
                Status::Ok
            } else {
                Status::Einval
            };
            assert_eq!(flow(5, mac, Some(kind << 28 | 0x0005_ffff), 60), expected);
            assert_eq!(
                flow(6, mac, Some(kind << 28 | 0x0005_0001), 60),
                Status::Einval
            );
        }
    }
}

#[test]
fn group_ids() {
    for kind in 0..16u32 {
        for vlan in [0u32, 1, 4094, 4095] {
            let id = kind << 28 | vlan << 16 | 1;
            let good = [0, 3, 4].contains(&kind) && (1..=4094).contains(&vlan);
            // Type 2 has an index there, and any will do.
            let good = good || kind == 2;
            let add = match kind {
                0 => port_group(id, 0),
                2 => route_group(7, id, 0x0005_0001, 5, [0; 6], [0; 6]),
                _ => list_group(7, id, &[vlan << 16 | 9]),
            };
            assert_eq!(status(&add), if good { Status::Ok } else { Status::Einval });
            let del = payload(9, &[(10, &id.to_le_bytes())]);
            assert_eq!(
                status(&del),
                if good { Status::Enoent } else { Status::Einval }
            );
        }
    }
    // Del does not look at the range of the low bits.
    assert_eq!(
        status(&payload(9, &[(10, &0x0001_ffffu32.to_le_bytes())])),
        Status::Enoent
    );
}

#[test]
fn port_groups() {
    assert_eq!(status(&port_group(0x0005_0000, 0)), Status::Ok);
    assert_eq!(status(&port_group(0x0005_0004, 1)), Status::Ok);
    assert_eq!(status(&port_group(0x0005_0005, 1)), Status::Einval);
    assert_eq!(status(&port_group(0x0005_0004, 2)), Status::Einval);
    let with = |out: u32| {
        payload(
            7,
            &[
                (10, &0x0005_0002u32.to_le_bytes()),
                (8, &out.to_le_bytes()),
                (43, &[1]),
            ],
        )
    };
    assert_eq!(status(&with(2)), Status::Ok);
    assert_eq!(status(&with(3)), Status::Einval);
    assert_eq!(status(&with(0x1_0002)), Status::Einval);
}

#[test]
fn member_lists() {
    let id = 0x4005_1234;
    let add = |members: &[u32]| status(&list_group(7, id, members));
    assert_eq!(add(&[0x0005_0001]), Status::Ok);
    assert_eq!(add(&[0x0005_0003, 0x0005_0001, 0x0005_ffff]), Status::Ok);
    assert_eq!(add(&[]), Status::Einval);
    assert_eq!(add(&[0x0005_0001, 0x0005_0001]), Status::Einval);
    assert_eq!(add(&[0x0006_0001]), Status::Einval);
    assert_eq!(add(&[0x3005_0001]), Status::Einval);
    let many = |count: u32| {
        (0..count)
            .map(|port| 0x0005_0000 | port)
            .collect::<Vec<_>>()
    };
    assert_eq!(add(&many(62)), Status::Ok);
    assert_eq!(add(&many(63)), Status::Einval);
    let raw = |count: u16, list: &[u8]| {
        let id = 0x3005_0000u32.to_le_bytes();
        status(&payload(
            7,
            &[(10, &id), (12, &count.to_le_bytes()), (13, list)],
        ))
    };
    let (a, b) = (0x0005_0001u32.to_le_bytes(), 0x0005_0002u32.to_le_bytes());
    assert_eq!(raw(2, &tlvs(&[(1, &a), (2, &b)])), Status::Ok);
    assert_eq!(raw(1, &tlvs(&[(1, &a), (2, &b)])), Status::Einval);
    assert_eq!(raw(3, &tlvs(&[(1, &a), (2, &b)])), Status::Einval);
    assert_eq!(raw(0, &[]), Status::Einval);
    assert_eq!(raw(2, &tlvs(&[(2, &a), (1, &b)])), Status::Einval);
    assert_eq!(raw(2, &tlvs(&[(0, &a), (1, &b)])), Status::Einval);
    assert_eq!(raw(2, &tlvs(&[(1, &a), (3, &b)])), Status::Einval);
    // Nothing is skipped here, neither by type nor by width.
    assert_eq!(raw(1, &tlvs(&[(1, &a), (99, &b)])), Status::Einval);
    assert_eq!(raw(2, &tlvs(&[(1, &a), (99, &b)])), Status::Einval);
    assert_eq!(raw(1, &tlvs(&[(1, &a[..2])])), Status::Einval);
    assert_eq!(
        raw(1, &[tlvs(&[(1, &a)]), vec![0; 4]].concat()),
        Status::Einval
    );
}

#[test]
fn mod_replaces_all_but_the_key() {
    let mut tables = tables();
    assert_eq!(
        tables.obey(&flow_50(7, 1, 5, Some(EVEN), Some(0x0005_0001), 60)),
        Status::Ok
    );
    let mut change = flow_0(7, 9, 1, 3, 0);
    change[8] = 4;
    assert_eq!(tables.obey(&change), Status::Ok);
    assert_eq!(tables.flows.len(), 1);
    assert_eq!(
        tables.flows[&7].matching,
        Match::Ingress { port: 1, mask: 3 }
    );
    assert_eq!((tables.flows[&7].priority, tables.flows[&7].goto), (9, 0));
    change[24 + 16 + 16 + 8] ^= 1;
    assert_eq!(tables.obey(&change), Status::Enoent);
    assert_eq!(
        tables.obey(&list_group(8, 0x3005_0001, &[0x0005_0001])),
        Status::Enoent
    );
    assert_eq!(
        tables.obey(&list_group(7, 0x3005_0001, &[0x0005_0001])),
        Status::Ok
    );
    assert_eq!(
        tables.obey(&list_group(8, 0x3005_0001, &[0x0005_0002])),
        Status::Ok
    );
    let members = vec![0x0005_0002];
    assert_eq!(tables.groups[&0x3005_0001], Group::List { members });
}

#[test]
fn full_tables() {
    let mut tables = tables();
    for cookie in 0..256 {
        assert_eq!(tables.obey(&flow_0(cookie, 1, 1, 1, 10)), Status::Ok);
    }
    // A fault, then the key, then the room.
    assert_eq!(tables.obey(&flow_0(300, 1, 1, 1, 10)), Status::Enomem);
    assert_eq!(tables.obey(&flow_0(255, 1, 1, 1, 10)), Status::Eexist);
    assert_eq!(tables.obey(&flow_0(255, 1, 1, 1, 20)), Status::Einval);
    let mut change = flow_10(255, 1, 1, 1, None, 20);
    change[8] = 4;
    assert_eq!(tables.obey(&change), Status::Ok);
    assert_eq!(
        tables.obey(&payload(5, &[(5, &255u64.to_le_bytes())])),
        Status::Ok
    );
    assert_eq!(
        tables.obey(&payload(5, &[(5, &255u64.to_le_bytes())])),
        Status::Enoent
    );
    assert_eq!(tables.obey(&flow_0(300, 1, 1, 1, 10)), Status::Ok);
    for index in 0..128 {
        assert_eq!(
            tables.obey(&list_group(7, 0x3005_0000 | index, &[0x0005_0001])),
            Status::Ok
        );
    }
    assert_eq!(tables.obey(&port_group(0x0005_0001, 0)), Status::Enomem);
    assert_eq!(
        tables.obey(&list_group(7, 0x3005_0000, &[0x0005_0001])),
        Status::Eexist
    );
    assert_eq!(
        tables.obey(&payload(9, &[(10, &0x3005_0000u32.to_le_bytes())])),
        Status::Ok
    );
    assert_eq!(tables.obey(&port_group(0x0005_0001, 0)), Status::Ok);
    assert_eq!((tables.flows.len(), tables.groups.len()), (256, 128));
}
