use super::*;
use crate::journal::{header, header_of, line};
use crate::recount::older;
use crate::undo::check::{by_console, check, stress, LONGEST_LIST};
use crate::undo::{post, undo, Refusal};

fn trail(ports: u8, payloads: &[Vec<u8>]) -> Vec<u8> {
    let lines: Vec<u8> = payloads
        .iter()
        .flat_map(|one| line(0x8000, 0, one))
        .collect();
    [header(ports), lines].concat()
}

fn del_flow(cookie: u64) -> Vec<u8> {
    payload(5, &[(5, &cookie.to_le_bytes())])
}

fn del_group(id: u32) -> Vec<u8> {
    payload(9, &[(10, &id.to_le_bytes())])
}

fn list(trail: &[u8], n: u64) -> Result<String, Refusal> {
    let mut room = vec![0; LONGEST_LIST];
    let length = undo(trail, n, &mut room)?;
    Ok(crate::console::hex(&room[..length]))
}

#[test]
fn the_worked_example_is_deleted() {
    let trail = trail(4, &[worked_example()]);
    let expected = concat!(
        "2800",
        "010000000a0000000900000000000000",
        "0200000018000000",
        "0a0000000c0000000200050000000000",
    );
    assert_eq!(list(&trail, 0), Ok(expected.to_string()));
    assert_eq!(list(&trail, 1), Ok("-".to_string()));
    assert_eq!(list(&trail, 2), Err(Refusal::Count));
}

#[test]
fn it_is_added_again_as_it_was() {
    let trail = trail(4, &[worked_example(), del_group(0x0005_0002)]);
    // The same fields in rising type: OUT_PPORT stands before GROUP_ID.
    let expected = concat!(
        "4800",
        "010000000a0000000700000000000000",
        "0200000038000000",
        "080000000c0000000200000000000000",
        "0a0000000c0000000200050000000000",
        "2b000000090000000100000000000000",
    );
    assert_eq!(list(&trail, 1), Ok(expected.to_string()));
}

#[test]
fn a_flow_has_both_times() {
    let trail = trail(4, &[flow_0(7, 1, 2, 3, 10), del_flow(7)]);
    let expected = concat!(
        "9800",
        "010000000a0000000300000000000000",
        "0200000088000000",
        "010000000a0000000000000000000000",
        "020000000c0000000100000000000000",
        "030000000c0000000000000000000000",
        "040000000c0000000000000000000000",
        "05000000100000000700000000000000",
        "060000000c0000000200000000000000",
        "070000000c0000000300000000000000",
        "090000000a0000000a00000000000000",
    );
    assert_eq!(list(&trail, 1), Ok(expected.to_string()));
}

/// The same lines in a trail of version 1.
fn old_trail(ports: u8, payloads: &[Vec<u8>]) -> Vec<u8> {
    let old: Vec<Vec<u8>> = payloads.iter().map(|one| older(one)).collect();
    [header_of(1, ports), trail(ports, &old)[6..].to_vec()].concat()
}

#[test]
fn a_trail_of_version_1_has_the_list_that_a_device_obeys() {
    let night = [
        worked_example(),
        list_group(7, 0x3005_0000, &[0x0005_0002, 0x0005_0009]),
        flow_0(7, 1, 2, 3, 10),
        del_group(0x0005_0002),
        list_group(8, 0x3005_0000, &[0x0005_0009]),
        del_flow(7),
    ];
    let (old, new) = (old_trail(4, &night), trail(4, &night));
    assert_eq!(old[12..84], old_example());
    for n in 0..=6 {
        assert_eq!(list(&old, n), list(&new, n));
        assert!(check(&old, n).is_ok_and(|checked| checked.is_ok()));
        assert_eq!(by_console(&old, n), Ok(()));
    }
    assert_eq!(list(&old, 7), Err(Refusal::Count));
    // Read with the other meaning, neither is good.
    for (mut trail, version) in [(old.clone(), 2), (old, 3), (new, 1)] {
        trail[3] = version;
        let refused = list(&trail, 0).map_err(|refusal| refusal.to_string());
        assert_eq!(refused, Err("refused 14 line 1".to_string()));
    }
}

#[test]
fn a_script_makes_a_trail_of_version_1_anew() {
    let mut night = vec![
        worked_example(),
        list_group(7, 0x3005_0000, &[0x0005_0002, 0x0005_0009]),
        // At the end 4 bytes are no header.
        [worked_example(), vec![1; 4]].concat(),
    ];
    // A length that goes far past the end.
    night.push([&worked_example()[..], &[9, 9, 9, 9, 0xff, 0xff, 0, 0]].concat());
    let old: Vec<Vec<u8>> = night.iter().map(|one| older(one)).collect();
    let lines = |payloads: &[Vec<u8>]| -> Vec<u8> {
        let stamped = [0x8000, 0x8000, 0x8016, 0x8016].into_iter().zip(payloads);
        let lines = (0..).zip(stamped);
        lines
            .flat_map(|(k, (stamp, one))| line(stamp, k, one))
            .collect()
    };
    let trail = [header_of(1, 4), lines(&old)].concat();
    let script = post::script(&trail).unwrap();
    assert_eq!(
        post::trail(script.as_bytes()),
        [header(4), lines(&night)].concat()
    );
    assert!(post::script(&trail[..trail.len() - 1]).is_err());
    assert!(post::script(&header_of(4, 4)).is_err());
}

#[test]
fn refusals_come_in_their_order_and_keep_the_room() {
    let good = trail(4, &[flow_0(1, 0, 0, 0, 0)]);
    let bad = trail(4, &[flow_0(1, 0, 0, 0, 0), flow_0(1, 0, 0, 0, 0)]);
    let told = |trail: &[u8], n, size| {
        let mut room = vec![9; size];
        let told = undo(trail, n, &mut room).map_err(|refusal| refusal.to_string());
        let written = *told.as_ref().unwrap_or(&0);
        assert!(room[written..].iter().all(|byte| *byte == 9));
        told
    };
    for n in [0, 1, 5] {
        assert_eq!(told(&bad, n, 0), Err("refused 14 line 2".to_string()));
    }
    assert_eq!(told(&good, 2, 0), Err("refused 15".to_string()));
    assert_eq!(told(&good, u64::MAX, 0), Err("refused 15".to_string()));
    assert_eq!(told(&good, 0, 41), Err("refused 16".to_string()));
    assert_eq!(told(&good, 0, 42), Ok(42));
    assert_eq!(told(&good, 0, 43), Ok(42));
    assert_eq!(told(&good, 1, 0), Ok(0));
}

/// Both tables full of the longest entries there are, all of one stock.
fn longest(stock: u16) -> Vec<Vec<u8>> {
    let members: Vec<u32> = (0..62).map(|port| 0x0001_0000 | port).collect();
    let flows = (0..256).map(|at| {
        let to = (vec![0x20; 16], vec![0xff; 16]);
        flow_30(u64::from(stock) << 32 | at, 0, to, Some(0x2000_0000), 60)
    });
    let groups =
        (0..128).map(|at| list_group(7, 0x3001_0000 | u32::from(stock) << 8 | at, &members));
    flows.chain(groups).collect()
}

#[test]
fn the_longest_list() {
    let dels = (0..256).map(|at| del_flow(1 << 32 | at));
    let dels = dels.chain((0..128).map(|at| del_group(0x3001_0100 | at)));
    let night: Vec<Vec<u8>> = [longest(1), dels.collect(), longest(2)].concat();
    let trail = trail(62, &night);
    let mut room = vec![0; LONGEST_LIST];
    assert_eq!(undo(&trail, 384, &mut room), Ok(LONGEST_LIST));
    assert_eq!(post::payloads(&room).map(|all| all.len()), Some(768));
    assert_eq!(check(&trail, 384).map(|checked| checked.is_ok()), Ok(true));
    assert_eq!(by_console(&trail, 384), Ok(()));
}

#[test]
fn more_lines_than_the_ring_has_slots() {
    let night: Vec<Vec<u8>> = (0..3_000)
        .map(|k| match k % 3 {
            0 => flow_0(k, 1, 1, 1, 10),
            1 => port_group(0x0001_0000 | (k % 5) as u32, 1),
            _ => del_flow(k - 2),
        })
        .collect();
    let mut tables = crate::tables::Tables::empty(4);
    let lines = night
        .iter()
        .map(|one| line(tables.obey(one).stamp(), 0, one));
    let trail = [header(4), lines.flatten().collect()].concat();
    for n in [0, 1, 1_500, 3_000] {
        assert_eq!(by_console(&trail, n), Ok(()));
    }
}

#[test]
fn a_script_of_slots_without_payload() {
    let lines = [
        line(0x8006, 0, &[]),
        line(0x805a, 1, &[]),
        line(0x8016, 2, &[]),
    ];
    let trail = [
        header(4),
        lines.concat(),
        line(0x8000, 3, &worked_example()),
    ]
    .concat();
    let script = post::script(&trail).unwrap();
    assert_eq!(post::trail(script.as_bytes()), trail);
}

#[test]
fn a_list_behind_a_script_that_left_its_ring_in_use() {
    // Two slots outstanding, no memory left, and no last newline; a CONTROL write that resets nothing.
    let trail = trail(
        4,
        &[worked_example(), del_group(0x0005_0002), worked_example()],
    );
    let mut script = post::script(&trail).unwrap().into_bytes();
    script.extend(b"write 4 0x100c 5\nwrite 4 0x300 2\nmemory 0");
    let night = post::trail(&script);
    let mut room = [0; 42];
    assert_eq!(undo(&night, 2, &mut room), Ok(42));
    let longer = post::trail(&post::behind(&script, &post::payloads(&room).unwrap()));
    assert_eq!(longer[..night.len()], night);
    assert_eq!(longer[night.len()..], line(0x8000, 0, &room[2..]));
    assert_eq!(list(&longer, 2), Ok("-".to_string()));
}

#[test]
fn stress_of_a_few_seeds() {
    let met = stress(0, 64).unwrap();
    for what in [
        "trails of version 1",
        "trails of version 2",
        "trails of version 3",
        "empty lists",
        "flows in another table",
        "by the console",
        "refused 15",
    ] {
        assert!(met[what] > 0);
    }
}
