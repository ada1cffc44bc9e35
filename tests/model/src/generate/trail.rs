//! Trails: valid, cut, with a spoiled header or a line that disagrees.

use super::commands::*;
use super::Rng;
use crate::journal;
use crate::recount::{newer, older};
use crate::tables::{Status, Tables};
use crate::tlv::Version;

pub fn journal(seed: u64) -> Vec<u8> {
    // Seeds 8, 24, 40 and so on have commands with something to be skipped.
    let mut rng = Rng::new(seed ^ 0x6a6f_7572_6e61_6c73).skipping(seed % 16 == 8);
    let ports = some_ports(&mut rng) as u8;
    let version = rng.pick(&Version::ALL);
    rng = rng.of_version(version);
    let mut tables = Tables::empty(u32::from(ports));
    let mut header = journal::header_of(version as u16, ports);
    let mut lines: Vec<Vec<u8>> = Vec::new();
    let size = rng.pick(&[2, 4, 8, 16, 1_024, 65_536]);
    let count = match rng.range(0, 9) {
        0 => 0,
        1..=6 => rng.range(1, 12),
        7 | 8 => rng.range(13, 80),
        _ => rng.range(81, 200),
    };
    let mut payloads = Vec::new();
    for _ in 0..count {
        payloads.push(None);
    }
    if rng.chance(8) {
        payloads.extend(flow_fillers(&mut rng, &tables).into_iter().map(Some));
        payloads.extend(group_fillers(&mut rng, &tables).into_iter().map(Some));
        rng.shuffle(&mut payloads);
    }
    // Few or all lines in the meaning of the other version; the status is that
    // of the trail's own.
    let others = if rng.chance(6) { 100 } else { 3 };
    for planned in payloads {
        let slot = (lines.len() as u64 % size) as u16;
        let fault = rng.pick(&[Status::Enxio, Status::Emsgsize, Status::Einval]);
        if planned.is_none() && rng.chance(10) {
            lines.push(journal::line(fault.stamp(), slot, &[]));
            continue;
        }
        let meaning = match rng.chance(others) {
            true => version.other(),
            false => version,
        };
        let payload = planned.unwrap_or_else(|| any_payload(&mut rng, &tables, 70));
        let payload = written(&payload, meaning);
        let status = tables.execute(&payload, version);
        lines.push(journal::line(status.stamp(), slot, &payload));
    }
    if rng.skipping > 0 {
        // The longest payload: a command and one TLV that is skipped.
        let mut payload = command(&mut rng, &tables).payload();
        let length = journal::LONGEST - payload.len();
        payload.extend([99, 0, 0, 0]);
        payload.extend((length as u16).to_le_bytes());
        payload.extend([0, 0]);
        payload.resize(journal::LONGEST, 0);
        let payload = written(&payload, version);
        let status = tables.execute(&payload, version);
        lines.push(journal::line(status.stamp(), 0, &payload));
        if rng.chance(20) {
            // Too short for a header, and another mark.
            header[rng.index(3)] ^= 0x20;
            header.truncate(rng.range(3, 5) as usize);
            return header;
        }
    }
    let kind = rng.range(0, 99);
    match kind {
        // As the device wrote it, or with slots that nobody checks.
        0..=29 => {}
        30..=33 => {
            for line in &mut lines {
                line[4] = rng.next() as u8;
                line[5] = rng.next() as u8;
            }
        }
        34..=53 => return cut(&mut rng, &header, &lines),
        54..=69 => spoil_header(&mut rng, &mut header),
        // A version that is known, but not that of the lines.
        70..=75 => header[3] = rng.pick(&[1, 2, 3]),
        _ => spoil_lines(&mut rng, &mut lines, &tables, version),
    }
    if kind >= 54 && rng.chance(15) {
        // A second fault behind the first.
        return cut(&mut rng, &header, &lines);
    }
    header.extend(lines.concat());
    header
}

/// Cut in the header, in a line's head, in its payload, or between two lines.
pub fn cut(rng: &mut Rng, header: &[u8], lines: &[Vec<u8>]) -> Vec<u8> {
    let whole: Vec<u8> = [header, &lines.concat()[..]].concat();
    let at = if lines.is_empty() || rng.chance(20) {
        rng.range(0, 6) as usize
    } else {
        let at = rng.index(lines.len());
        let start = 6 + lines[..at].iter().map(Vec::len).sum::<usize>();
        match rng.range(0, 3) {
            0 => start + rng.range(0, 5) as usize,
            1 => start + 6,
            2 => start + lines[at].len() - 1,
            _ => start + rng.range(0, lines[at].len() as u64) as usize,
        }
    };
    whole[..at].to_vec()
}

pub fn spoil_header(rng: &mut Rng, header: &mut Vec<u8>) {
    let bit = 1 << rng.range(0, 7);
    let unknown: [u16; 8] = [0, 4, 4, 5, 0x0103, 0x0300, 0x00ff, 65_535];
    match rng.range(0, 8) {
        0 => header[rng.index(3)] ^= bit,
        1 | 2 => header[3..5].copy_from_slice(&rng.pick(&unknown).to_le_bytes()),
        // Its own, but for the high byte.
        3 | 4 => header[4] = rng.pick(&[1, 2, 3, 0xff]),
        // Its own, big-endian.
        5 => header.swap(3, 4),
        6 => header[5] = rng.pick(&[0, 63, 64, 255]),
        7 => *header = vec![b'R', b'K', b'X', 9, 9, 0],
        _ => header[3..6].copy_from_slice(&[4, 0, 63]),
    }
}

/// Makes one line disagree, in one of the ways there are.
pub fn spoil_lines(rng: &mut Rng, lines: &mut Vec<Vec<u8>>, tables: &Tables, version: Version) {
    if lines.is_empty() {
        lines.push(journal::line(0x8000, 0, &[]));
        return;
    }
    let at = rng.index(lines.len());
    let payload = lines[at][6..].to_vec();
    let codes = [0, 2, 6, 12, 17, 22, 90, 95, 1, 0x7fff].map(|code: u16| 0x8000 | code);
    match rng.range(0, 13) {
        0 => {
            let code = rng.pick(&codes);
            lines[at][..2].copy_from_slice(&code.to_le_bytes());
        }
        // Without bit 15, or with another high bit.
        1 => lines[at][1] = 0,
        2 => lines[at][1] |= 1 << rng.range(0, 6),
        3 => lines[at] = journal::line(Status::Enxio.stamp(), 0, &payload),
        4 => lines[at] = journal::line(Status::Emsgsize.stamp(), 0, &payload),
        5 => lines[at] = journal::line(Status::Enxio.stamp(), 0, &[0; 8]),
        6 | 7 => {
            // Longer than any payload: TLVs that are skipped, whole or cut.
            let length = rng.pick(&[4_096, 4_097, 4_104, 8_192, 65_528, 65_535]);
            let mut body = command(rng, tables).payload();
            body.extend([99, 0, 0, 0, 8, 0, 0, 0].repeat(8_192));
            let body = written(&body, version);
            let code = rng.pick(&codes);
            lines[at] = journal::line(code, 0, &body[..length]);
            if rng.chance(30) {
                let keep = rng.range(6, lines[at].len() as u64 - 1) as usize;
                lines[at].truncate(keep);
                lines.truncate(at + 1);
            }
        }
        8 => drop(lines.remove(at)),
        9 => lines.insert(at, lines[at].clone()),
        10 => {
            let other = rng.index(lines.len());
            lines.swap(at, other);
        }
        11 => {
            if let Some(byte) = (!payload.is_empty()).then(|| 6 + rng.index(payload.len())) {
                lines[at][byte] ^= 1 << rng.range(0, 7);
            }
        }
        // In the meaning of the other version, with its status in this one.
        12 => {
            lines[at].truncate(6);
            lines[at].extend(match version {
                Version::One => newer(&payload),
                Version::Two | Version::Three => older(&payload),
            });
        }
        // A length that is off by some bytes shifts all that follows.
        _ => lines[at][2] ^= rng.pick(&[1, 2, 8, 0x80]),
    }
}
