//! Cases from the build description, chapter by chapter, and from requests 2026-06, 2026-02, 2026-03, 2026-04 and 2026-05.

mod calls;
mod commands;
mod coverage;
mod frames;
mod lengths;
mod order;
mod routes;
mod trail;
mod undo;

/// TLVs in a row with zero pad and fill, each length with the header.
fn tlvs(fields: &[(u32, &[u8])]) -> Vec<u8> {
    let mut out = Vec::new();
    for (kind, value) in fields {
        out.extend(kind.to_le_bytes());
        out.extend((value.len() as u16 + 8).to_le_bytes());
        out.extend([0, 0]);
        out.extend(*value);
        while out.len() % 8 != 0 {
            out.push(0);
        }
    }
    out
}

fn payload(code: u16, fields: &[(u32, &[u8])]) -> Vec<u8> {
    tlvs(&[(1, &code.to_le_bytes()), (2, &tlvs(fields))])
}

/// The description's payload with the lengths of request 2026-02: adds the
/// group of VLAN 5 and port 2.
fn worked_example() -> Vec<u8> {
    crate::console::bytes(concat!(
        "010000000A0000000700000000000000",
        "0200000038000000",
        "0A0000000C0000000200050000000000",
        "080000000C0000000200000000000000",
        "2B000000090000000100000000000000",
    ))
    .unwrap()
}

/// The same as the description has it.
fn old_example() -> Vec<u8> {
    crate::console::bytes(concat!(
        "01000000020000000700000000000000",
        "0200000030000000",
        "0A000000040000000200050000000000",
        "08000000040000000200000000000000",
        "2B000000010000000100000000000000",
    ))
    .unwrap()
}

fn port_group(id: u32, pop: u8) -> Vec<u8> {
    payload(
        7,
        &[
            (10, &id.to_le_bytes()),
            (8, &(id & 0xffff).to_le_bytes()),
            (43, &[pop]),
        ],
    )
}

fn list_group(code: u16, id: u32, members: &[u32]) -> Vec<u8> {
    let values: Vec<[u8; 4]> = members.iter().map(|id| id.to_le_bytes()).collect();
    let list: Vec<(u32, &[u8])> = (1..).zip(&values).map(|(k, v)| (k, &v[..])).collect();
    let count = (members.len() as u16).to_le_bytes();
    payload(
        code,
        &[(10, &id.to_le_bytes()), (12, &count), (13, &tlvs(&list))],
    )
}

fn flow_0(cookie: u64, priority: u32, port: u32, mask: u32, goto: u16) -> Vec<u8> {
    payload(
        3,
        &[
            (1, &[0, 0]),
            (2, &priority.to_le_bytes()),
            (5, &cookie.to_le_bytes()),
            (6, &port.to_le_bytes()),
            (7, &mask.to_le_bytes()),
            (9, &goto.to_le_bytes()),
        ],
    )
}

fn flow_10(
    cookie: u64,
    priority: u32,
    port: u32,
    vlan: u16,
    new: Option<u16>,
    goto: u16,
) -> Vec<u8> {
    let (priority, cookie, port) = (
        priority.to_le_bytes(),
        cookie.to_le_bytes(),
        port.to_le_bytes(),
    );
    let (vlan, goto, new) = (
        vlan.to_be_bytes(),
        goto.to_le_bytes(),
        new.map(u16::to_be_bytes),
    );
    let mut fields: Vec<(u32, &[u8])> = vec![
        (1, &[10, 0]),
        (2, &priority),
        (5, &cookie),
        (6, &port),
        (14, &vlan),
        (9, &goto),
    ];
    if let Some(new) = &new {
        fields.push((19, new));
    }
    payload(3, &fields)
}

fn flow_50(
    cookie: u64,
    priority: u32,
    vlan: u16,
    mac: Option<[u8; 6]>,
    group: Option<u32>,
    goto: u16,
) -> Vec<u8> {
    let (priority, cookie) = (priority.to_le_bytes(), cookie.to_le_bytes());
    let (vlan, goto, group) = (
        vlan.to_be_bytes(),
        goto.to_le_bytes(),
        group.map(u32::to_le_bytes),
    );
    let mut fields: Vec<(u32, &[u8])> = vec![
        (1, &[50, 0]),
        (2, &priority),
        (5, &cookie),
        (14, &vlan),
        (9, &goto),
    ];
    if let Some(mac) = &mac {
        fields.push((24, mac));
    }
    if let Some(group) = &group {
        fields.push((10, group));
    }
    payload(3, &fields)
}

fn flow_20(cookie: u64, port: u32, ethertype: u16, mac: [u8; 6], vlan: u16) -> Vec<u8> {
    payload(
        3,
        &[
            (1, &[20, 0]),
            (2, &[0; 4]),
            (5, &cookie.to_le_bytes()),
            (6, &port.to_le_bytes()),
            (23, &ethertype.to_be_bytes()),
            (24, &mac),
            (14, &vlan.to_be_bytes()),
            (9, &[30, 0]),
        ],
    )
}

/// A route to an address and its mask, of 4 or of 16 bytes.
fn flow_30(
    cookie: u64,
    priority: u32,
    (address, mask): (Vec<u8>, Vec<u8>),
    group: Option<u32>,
    goto: u16,
) -> Vec<u8> {
    let (ethertype, first): ([u8; 2], u32) = match address.len() {
        4 => ([0x08, 0x00], 36),
        _ => ([0x86, 0xdd], 38),
    };
    let (priority, cookie) = (priority.to_le_bytes(), cookie.to_le_bytes());
    let (goto, group) = (goto.to_le_bytes(), group.map(u32::to_le_bytes));
    let mut fields: Vec<(u32, &[u8])> = vec![
        (1, &[30, 0]),
        (2, &priority),
        (5, &cookie),
        (23, &ethertype),
        (first, &address),
        (first + 1, &mask),
        (9, &goto),
    ];
    if let Some(group) = &group {
        fields.push((10, group));
    }
    payload(3, &fields)
}

fn route_group(code: u16, id: u32, lower: u32, vlan: u16, source: [u8; 6], to: [u8; 6]) -> Vec<u8> {
    payload(
        code,
        &[
            (10, &id.to_le_bytes()),
            (11, &lower.to_le_bytes()),
            (14, &vlan.to_be_bytes()),
            (26, &source),
            (24, &to),
        ],
    )
}
