//! The program `undo` as the second implementation has it, and the commands around it.

use super::check::{check, stress as stress_of};
use super::misread::{all, misread, Label as L};
use super::{payloads, post::behind, post::payloads as payloads_in, undo as undo_call, Refusal};
use crate::console::hex;
use crate::generate::Ask;
use std::fs::{self, OpenOptions};
use std::io::{self, Read, Write};
use std::process::ExitCode;

fn print(text: &str) -> io::Result<()> {
    let mut output = io::stdout().lock();
    output.write_all(text.as_bytes())?;
    output.flush()
}

/// More than the longest list has.
const ROOM: usize = 1 << 18;

/// A file, or standard input where it is `-`.
fn read(file: &str) -> io::Result<Vec<u8>> {
    if file != "-" {
        return fs::read(file);
    }
    let mut input = Vec::new();
    io::stdin().lock().read_to_end(&mut input)?;
    Ok(input)
}

/// `undo N FILE OUT`: the list goes to OUT. A refused run leaves OUT alone, and is no failure.
pub fn undo(n: u64, file: &str, out: &str) -> io::Result<ExitCode> {
    let trail = read(file)?;
    let mut room = vec![0; ROOM];
    let length = match undo_call(&trail, n, &mut room) {
        Ok(length) => length,
        Err(refusal) => return refused(refusal, out),
    };
    write(out, &room[..length])?;
    let commands = payloads(&trail, n).unwrap_or_default();
    let (count, mut bytes) = (commands.len(), length);
    if misread(L::UndoPrintsWithoutLengths) {
        bytes = commands.iter().map(Vec::len).sum();
    }
    print(&match () {
        _ if misread(L::UndoPrintsBytesFirst) => format!("bytes {bytes}\npayloads {count}\n"),
        _ if misread(L::UndoPrintsDone) => format!("done 0\npayloads {count}\nbytes {bytes}\n"),
        _ => format!("payloads {count}\nbytes {bytes}\n"),
    })?;
    Ok(ExitCode::SUCCESS)
}

fn refused(refusal: Refusal, out: &str) -> io::Result<ExitCode> {
    let there = fs::metadata(out).is_ok();
    match () {
        _ if misread(L::UndoFileMade) && !there => fs::write(out, [])?,
        _ if misread(L::UndoFileEmptied) && there => fs::write(out, [])?,
        _ if misread(L::UndoFileRemoved) && there => fs::remove_file(out)?,
        _ => {}
    }
    print(&format!("{refusal}\n"))?;
    Ok(ExitCode::from(u8::from(misread(L::UndoRefusedEnds1))))
}

fn write(out: &str, list: &[u8]) -> io::Result<()> {
    let mut how = OpenOptions::new();
    how.write(true).create(true);
    match () {
        _ if misread(L::UndoEmptyNotWritten) && list.is_empty() => Ok(()),
        _ if misread(L::UndoFileAppended) => how.append(true).open(out)?.write_all(list),
        _ if misread(L::UndoFileRestKept) => how.truncate(false).open(out)?.write_all(list),
        _ => fs::write(out, list),
    }
}

/// What a room has in each byte before the call.
pub const KEPT: u8 = 0xa5;

/// Questions from standard input, one after the other: n (8 bytes), the room's length (4), the trail's length (4), the trail.
pub fn undo_all() -> io::Result<()> {
    let mut input = Vec::new();
    io::stdin().lock().read_to_end(&mut input)?;
    let (mut rest, mut out) = (&input[..], String::new());
    for number in 1.. {
        let Some((head, behind)) = rest.split_first_chunk::<16>() else {
            break;
        };
        let [n, room, length] = numbers(head);
        let (trail, next) = behind.split_at(behind.len().min(length as usize));
        let mut room = vec![KEPT; room as usize];
        let told = match undo_call(trail, n, &mut room) {
            Ok(length) => format!("done {length}"),
            Err(refusal) => refusal.to_string(),
        };
        out.push_str(&format!("undo {number}\n{told}\nroom {}\n", hex(&room)));
        rest = next;
    }
    print(&out)
}

fn numbers(head: &[u8; 16]) -> [u64; 3] {
    let number = |from: usize, to: usize| {
        let bytes = head[from..to].iter().rev();
        bytes.fold(0, |n, byte| n << 8 | u64::from(*byte))
    };
    [number(0, 8), number(8, 12), number(12, 16)]
}

/// Questions as `undo_all` reads them.
pub fn frames(asks: &[Ask]) -> Vec<u8> {
    let mut out = Vec::new();
    for ask in asks {
        out.extend(ask.n.to_le_bytes());
        out.extend((ask.room as u32).to_le_bytes());
        out.extend((ask.trail.len() as u32).to_le_bytes());
        out.extend(&ask.trail);
    }
    out
}

/// A script with the payloads of a list posted behind it.
pub fn post(list: &str, script: &str) -> io::Result<()> {
    let (list, script) = (fs::read(list)?, fs::read(script)?);
    let payloads = payloads_in(&list).ok_or(io::Error::other("no list"))?;
    let mut output = io::stdout().lock();
    output.write_all(&behind(&script, &payloads))?;
    output.flush()
}

/// The list of a trail, carried out. A refusal is no failure.
pub fn check_file(n: u64, file: &str) -> io::Result<Result<String, String>> {
    let trail = fs::read(file)?;
    Ok(check(&trail, n).map(|checked| match checked {
        Ok(checked) => format!(
            "payloads {}\nbytes {}\nas then\n",
            checked.payloads,
            checked.list.len()
        ),
        Err(refusal) => format!("{refusal}\n"),
    }))
}

fn ended(told: Result<String, String>) -> io::Result<ExitCode> {
    match told {
        Ok(text) => print(&text).map(|()| ExitCode::SUCCESS),
        Err(failure) => print(&format!("FAILED: {failure}\n")).map(|()| ExitCode::FAILURE),
    }
}

pub fn check_command(n: u64, file: &str) -> io::Result<ExitCode> {
    ended(check_file(n, file)?)
}

/// Generated trails against the check; what was met is printed.
pub fn stress(seed: u64, count: u64) -> io::Result<ExitCode> {
    ended(stress_of(seed, count).map(|met| {
        let lines: Vec<String> = met
            .iter()
            .map(|(what, times)| format!("{times:>12} {what}\n"))
            .collect();
        lines.concat()
    }))
}

pub fn list_misreadings() -> io::Result<()> {
    let lines: Vec<String> = all()
        .iter()
        .map(|(_, name, meaning)| format!("{name}\t{meaning}\n"))
        .collect();
    print(&lines.concat())
}
