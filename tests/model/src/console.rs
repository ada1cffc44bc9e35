//! The drivers that read scripts: calls of the device, register calls alone, and payloads alone.

use crate::device::{inside, Calls, Device};
use crate::frame::{LIST, NUMBERS};
use crate::journal::LONGEST;
use crate::misread::{misread, Label};
use crate::registers::Refusal;
use crate::tables::Tables;
use std::fmt::Write as _;
use std::io::{self, BufRead, Write};

pub const MEMORY_LIMIT: u64 = 1_048_576;
pub const ROOM_LIMIT: u64 = 65_536;
pub const LIST_LIMIT: u64 = 1_024;
pub const LINE_LIMIT: usize = 65_535;
pub const REGISTERS_LINE_LIMIT: usize = 256;

/// A line's outcome: text to print, nothing to print, or why it is no call.
pub type Outcome = Result<Option<String>, String>;

/// Decimal or 0x-hexadecimal digits and nothing else, up to 64 bits.
pub fn number(text: &str) -> Result<u64, String> {
    let (digits, base) = match text.strip_prefix("0x") {
        Some(digits) => (digits, 16),
        None => (text, 10),
    };
    // The parser alone would take a sign.
    if digits.is_empty() || !digits.chars().all(|c| c.is_digit(base)) {
        return Err(format!("malformed number {text:?}"));
    }
    u64::from_str_radix(digits, base).map_err(|_| format!("number {text} is over 64 bits"))
}

pub fn bytes(text: &str) -> Result<Vec<u8>, String> {
    if text == "-" {
        return Ok(Vec::new());
    }
    let digits: Option<Vec<u8>> = text
        .chars()
        .map(|c| c.to_digit(16).map(|d| d as u8))
        .collect();
    match digits {
        Some(digits) if !digits.is_empty() && digits.len() % 2 == 0 => Ok(digits
            .chunks(2)
            .map(|pair| pair[0] << 4 | pair[1])
            .collect()),
        _ => Err("malformed bytes".to_string()),
    }
}

pub fn hex(bytes: &[u8]) -> String {
    if bytes.is_empty() {
        return "-".to_string();
    }
    let mut text = String::with_capacity(2 * bytes.len());
    for byte in bytes {
        let _ = write!(text, "{byte:02x}");
    }
    text
}

/// A number up to a limit, as a length.
fn length(text: &str, limit: u64) -> Result<usize, String> {
    let number = number(text)?;
    if number > limit {
        return Err(format!("{number} is over {limit}"));
    }
    Ok(number as usize)
}

fn vectors(raised: bool) -> &'static str {
    if raised {
        "0"
    } else {
        "-"
    }
}

/// A line that LF ended, without the CR directly before it.
fn without_cr(line: &[u8]) -> &[u8] {
    if misread(Label::CrKept) {
        return line;
    }
    if misread(Label::CrsAllTaken) {
        let kept = line.iter().rposition(|byte| *byte != b'\r');
        return &line[..kept.map_or(0, |at| at + 1)];
    }
    line.strip_suffix(b"\r").unwrap_or(line)
}

/// A line as it was read, without its end: LF, or CR LF. Up to a limit, to which the CR counts; `None` for those that are passed over.
fn text(line: &[u8], limit: usize) -> Result<Option<&str>, String> {
    let (line, counted) = match line.strip_suffix(b"\n") {
        Some(line) if misread(Label::CrNotCounted) => (without_cr(line), without_cr(line)),
        Some(line) => (without_cr(line), line),
        None => (line, line),
    };
    if counted.len() > limit {
        return Err(format!("line is over {limit} bytes"));
    }
    if line.is_empty() || line[0] == b'#' {
        return Ok(None);
    }
    std::str::from_utf8(line)
        .map(Some)
        .map_err(|_| "line is no text".to_string())
}

/// A script's guest memory, and its device once there is one.
#[derive(Clone, Debug)]
pub struct Driver<D> {
    pub memory: Vec<u8>,
    pub device: Option<D>,
}

pub type Console = Driver<Device>;

impl<D> Default for Driver<D> {
    fn default() -> Self {
        Driver {
            memory: Vec::new(),
            device: None,
        }
    }
}

impl<D: Calls> Driver<D> {
    /// A line with its end, where it has one.
    pub fn line(&mut self, line: &[u8]) -> Outcome {
        let Some(text) = text(line, LINE_LIMIT)? else {
            return Ok(None);
        };
        let words: Vec<&str> = text.split(' ').collect();
        match words[..] {
            ["memory", size] => {
                self.memory = vec![0; length(size, MEMORY_LIMIT)?];
                Ok(None)
            }
            ["poke", address, data] => {
                let (address, data) = (number(address)?, bytes(data)?);
                let place = inside(&self.memory, u128::from(address), data.len() as u128)
                    .ok_or("poke outside memory")?;
                self.memory[place].copy_from_slice(&data);
                Ok(None)
            }
            ["peek", address, size] => {
                let (address, size) = (number(address)?, number(size)?);
                let place = inside(&self.memory, u128::from(address), u128::from(size))
                    .ok_or("peek outside memory")?;
                Ok(Some(hex(&self.memory[place])))
            }
            ["fresh", ports, switch_id] => {
                let (ports, switch_id) = (number(ports)?, number(switch_id)?);
                Ok(Some(match D::fresh(ports, switch_id) {
                    Ok(device) => {
                        self.device = Some(device);
                        "0".to_string()
                    }
                    Err(refusal) => refusal.number().to_string(),
                }))
            }
            _ => self.device_call(&words).map(Some),
        }
    }

    fn device_call(&mut self, words: &[&str]) -> Result<String, String> {
        let memory = &mut self.memory;
        let device = self.device.as_mut().ok_or("no device");
        let refused = |refusal: Refusal, rest| format!("{} {rest}", refusal.number());
        Ok(match *words {
            ["link", port, up] => {
                let (port, up) = (number(port)?, length(up, 1)? == 1);
                match device?.link(port, up) {
                    Ok(()) => "0".to_string(),
                    Err(refusal) => refusal.number().to_string(),
                }
            }
            ["read", width, offset] => {
                let (width, offset) = (number(width)?, number(offset)?);
                match device?.read(width, offset) {
                    Ok(value) => format!("0 {value}"),
                    Err(refusal) => refused(refusal, "0"),
                }
            }
            ["write", width, offset, value] => {
                let (width, offset, value) = (number(width)?, number(offset)?, number(value)?);
                match device?.write(width, offset, value) {
                    Ok(raised) => format!("0 {}", vectors(raised)),
                    Err(refusal) => refused(refusal, "-"),
                }
            }
            ["work", room] => {
                let mut room = vec![0; length(room, ROOM_LIMIT)?];
                match device?.work(memory, &mut room) {
                    Ok(done) => format!("0 {} {}", vectors(done.raised), hex(&room[..done.length])),
                    Err(refusal) => refused(refusal, "- -"),
                }
            }
            ["frame", port, data] => frame(&*device?, number(port)?, &bytes(data)?, LIST),
            ["frame", port, data, list] => {
                let (port, data, list) = (number(port)?, bytes(data)?, length(list, LIST_LIMIT)?);
                frame(&*device?, port, &data, list)
            }
            ["header", room] => {
                let mut room = vec![0; length(room, ROOM_LIMIT)?];
                match device?.header(&mut room) {
                    Ok(length) => format!("0 {}", hex(&room[..length])),
                    Err(refusal) => refused(refusal, "-"),
                }
            }
            _ => return Err("no call".to_string()),
        })
    }
}

fn frame<D: Calls>(device: &D, port: u64, data: &[u8], list: usize) -> String {
    let mut list = vec![0; list];
    match device.frame(port, data, &mut list) {
        Ok(count) => {
            let mut text = format!("0 {count}");
            for value in &list[..NUMBERS * count] {
                let _ = write!(text, " {value}");
            }
            text
        }
        Err(refusal) => format!("{} 0", refusal.number()),
    }
}

/// The register calls alone, with their names and outcomes in a script of the console, in shorter lines.
#[derive(Clone, Debug, Default)]
pub struct RegisterCalls {
    pub console: Console,
}

impl RegisterCalls {
    pub fn line(&mut self, line: &[u8]) -> Outcome {
        let Some(text) = text(line, REGISTERS_LINE_LIMIT)? else {
            return Ok(None);
        };
        match text.split(' ').next() {
            Some("fresh" | "link" | "read" | "write") => self.console.line(line),
            _ => Err("no call".to_string()),
        }
    }
}

/// Payloads alone, carried out on a device's tables without a ring.
#[derive(Clone, Debug, Default)]
pub struct Execute {
    pub tables: Option<Tables>,
}

impl Execute {
    pub fn line(&mut self, line: &[u8]) -> Outcome {
        let Some(text) = text(line, LINE_LIMIT)? else {
            return Ok(None);
        };
        let words: Vec<&str> = text.split(' ').collect();
        match words[..] {
            ["ports", ports] => {
                let ports = length(ports, 62)?;
                if ports == 0 {
                    return Err("a device has 1 to 62 ports".to_string());
                }
                self.tables = Some(Tables::empty(ports as u32));
                Ok(None)
            }
            ["payload", data] => {
                let data = bytes(data)?;
                if data.len() > LONGEST {
                    return Err(format!("payload is over {LONGEST} bytes"));
                }
                let tables = self.tables.as_mut().ok_or("no ports")?;
                let status = tables.obey(&data);
                let (flows, groups) = (tables.flows.len(), tables.groups.len());
                Ok(Some(format!("{} {flows} {groups}", status.code())))
            }
            _ => Err("no call".to_string()),
        }
    }
}

/// Feeds a script to one of them, a line at a time.
pub fn run(name: &str, mut call: impl FnMut(&[u8]) -> Outcome) -> io::Result<()> {
    let mut input = io::stdin().lock();
    let mut output = io::BufWriter::new(io::stdout().lock());
    let mut line = Vec::new();
    for count in 1u64.. {
        line.clear();
        if input.read_until(b'\n', &mut line)? == 0 {
            break;
        }
        match call(&line) {
            Ok(Some(text)) => writeln!(output, "{text}")?,
            Ok(None) => {}
            Err(reason) => eprintln!("{name}: line {count}: {reason}"),
        }
    }
    output.flush()
}
