//! Console scripts: a trail's slots, or a list's payloads, posted on ring 0 and carried out; and the trail that a script makes.

use super::line_at;
use crate::console::{bytes, hex, number, Console, MEMORY_LIMIT, ROOM_LIMIT};
use crate::journal::{self, HEADER, LINE, LONGEST};
use crate::recount;
use crate::tables::Status;
use crate::tlv::Version;
use std::fmt::Write as _;

/// The ring: its descriptors stand from address 0 on, the payloads behind them.
const SIZE: usize = 1_024;
const BUFFERS: usize = 32 * SIZE;

/// The payloads of a list; `None` if it is not made of whole ones.
pub fn payloads(list: &[u8]) -> Option<Vec<&[u8]>> {
    let (mut rest, mut payloads) = (list, Vec::new());
    while let Some((length, behind)) = rest.split_first_chunk() {
        let length = usize::from(u16::from_le_bytes(*length));
        payloads.push(behind.get(..length)?);
        rest = &behind[length..];
    }
    rest.is_empty().then_some(payloads)
}

/// A script with the payloads posted behind it: on a ring that is reset, in a memory that is made anew, so that it does not matter what the
/// script left there. The tables and the trail stay.
pub fn behind(script: &[u8], payloads: &[&[u8]]) -> Vec<u8> {
    let mut out = script.to_vec();
    if out.last().is_some_and(|byte| *byte != b'\n') {
        out.push(b'\n');
    }
    let slots: Vec<(Status, &[u8])> = payloads
        .iter()
        .map(|payload| (Status::Ok, *payload))
        .collect();
    let posting = posting(&slots);
    if !slots.is_empty() {
        let ring = format!(
            "memory {MEMORY_LIMIT}\nwrite 4 0x1014 1\nwrite 8 0x1000 0\nwrite 4 0x1008 {SIZE}\n"
        );
        out.extend(ring.bytes());
    }
    out.extend(posting.bytes());
    out
}

/// A script whose device makes this trail, slots aside. One of version 1 or 2 is made as a device writes it now (`newer`). Why there is no
/// script, where the trail is cut or of no known version.
pub fn script(trail: &[u8]) -> Result<String, String> {
    let trail = newer(trail)?;
    let slots: Vec<(Status, &[u8])> = lines(&trail)?
        .into_iter()
        .map(|line| {
            let stamp = u16::from_le_bytes([line[0], line[1]]);
            let fault = [Status::Enxio, Status::Emsgsize]
                .into_iter()
                .find(|fault| fault.stamp() == stamp);
            (fault.unwrap_or(Status::Ok), &line[LINE..])
        })
        .collect();
    let ring = format!(
        "memory {MEMORY_LIMIT}\nfresh {} 1\nwrite 8 0x1000 0\nwrite 4 0x1008 {SIZE}\n",
        trail[HEADER - 1]
    );
    Ok(ring + &posting(&slots))
}

fn lines(trail: &[u8]) -> Result<Vec<&[u8]>, String> {
    let (mut lines, mut at) = (Vec::new(), HEADER);
    while at < trail.len() {
        let line = line_at(trail, at).ok_or("the trail is cut short")?;
        lines.push(line);
        at += line.len();
    }
    Ok(lines)
}

/// A trail as a device writes it now: with version 3 in its header, and the same lines, which complete alike. From version 1 lengths count 8
/// more, in payloads that are ill formed too. What versions 1 and 2 refuse for its table or group type, and version 3 might not, has
/// another table or type that version 3 refuses with the same status.
pub fn newer(trail: &[u8]) -> Result<Vec<u8>, String> {
    let header = trail.get(..HEADER).ok_or("the trail is cut short")?;
    let version = journal::version(trail).ok_or("the trail's version is not known")?;
    if version == Version::DEVICE {
        return Ok(trail.to_vec());
    }
    let mut out = journal::header_of(Version::DEVICE as u16, header[HEADER - 1]);
    for line in lines(trail)? {
        let payload = match version {
            Version::One => recount::newer(&line[LINE..]),
            _ => line[LINE..].to_vec(),
        };
        out.extend(&line[..LINE]);
        out.extend(recount::refused_still(&payload));
    }
    Ok(out)
}

/// Posts slots in batches that ring and memory hold, and works each off. A slot has its payload, or the fault that leaves none.
fn posting(slots: &[(Status, &[u8])]) -> String {
    let (mut out, mut tail, mut rest) = (String::new(), 0, slots);
    while !rest.is_empty() {
        let batch = fitting(rest);
        let mut at = BUFFERS;
        for (k, (fault, payload)) in rest[..batch].iter().enumerate() {
            if !payload.is_empty() {
                let _ = writeln!(out, "poke {at:#x} {}", hex(payload));
            }
            let slot = descriptor(*fault, at, payload.len());
            let _ = writeln!(out, "poke {:#x} {}", 32 * ((tail + k) % SIZE), hex(&slot));
            at += payload.len().next_multiple_of(8);
        }
        tail = (tail + batch) % SIZE;
        let _ = writeln!(out, "write 4 0x100c {tail}");
        out.push_str(&format!("work {ROOM_LIMIT}\n").repeat(batch));
        let _ = writeln!(out, "write 4 0x1018 {batch}");
        rest = &rest[batch..];
    }
    out
}

/// How many of the first slots go into one batch.
fn fitting(slots: &[(Status, &[u8])]) -> usize {
    let mut left = MEMORY_LIMIT as usize - BUFFERS;
    let fits = |(_, payload): &&(Status, &[u8])| {
        let size = payload.len().next_multiple_of(8);
        let fits = size <= left;
        left = left.saturating_sub(size);
        fits
    };
    slots.iter().take(SIZE - 1).take_while(fits).count().max(1)
}

fn descriptor(fault: Status, at: usize, length: usize) -> [u8; 32] {
    let (address, size) = match fault {
        Status::Enxio => (1, 0),
        Status::Emsgsize => (0, LONGEST + 1),
        _ => (at, length),
    };
    let mut out = [0; 32];
    out[..8].copy_from_slice(&(address as u64).to_le_bytes());
    out[16..18].copy_from_slice(&(size as u16).to_le_bytes());
    out[18..20].copy_from_slice(&(size as u16).to_le_bytes());
    out
}

/// The trail of a script's device, since it was made or last reset; empty if there is none.
pub fn trail(script: &[u8]) -> Vec<u8> {
    let (mut console, mut trail) = (Console::default(), Vec::new());
    for line in script.split(|byte| *byte == b'\n') {
        let Ok(Some(told)) = console.line(line) else {
            continue;
        };
        let told: Vec<&str> = told.split(' ').collect();
        let text = String::from_utf8_lossy(line);
        let words: Vec<&str> = text.split(' ').collect();
        match (&words[..], &told[..]) {
            (["fresh", ports, _], ["0"]) => {
                trail = journal::header(number(ports).unwrap_or(0) as u8)
            }
            (["write", _, offset, value], ["0", _])
                if number(offset) == Ok(0x300)
                    && number(value).is_ok_and(|value| value % 2 == 1) =>
            {
                trail.truncate(HEADER);
            }
            (["work", _], ["0", _, line]) => trail.extend(bytes(line).unwrap_or_default()),
            _ => {}
        }
    }
    trail
}
