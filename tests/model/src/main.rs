//! The commands of the second implementation.

use model::undo::{self, post};
use model::{console, generate, journal, met, misread, order};
use std::io::{self, Read, Write};
use std::process::ExitCode;

const USAGE: &str = "usage: model [--misread LABEL] console
       model [--misread LABEL] registers
       model [--misread LABEL] replay [FILE]
       model [--misread LABEL] replay-all
       model [--misread LABEL] execute
       model --list-misreadings
       model --check-order COMMAND ..
       model order-counts
       model size-counts
       model generate SEED CALLS
       model generate-journal SEED
       model generate-payloads SEED COUNT
       model [--misread LABEL] undo N FILE OUT
       model [--misread LABEL] undo-all
       model --list-undo-misreadings
       model [--misread LABEL] undo-check N FILE
       model [--misread LABEL] undo-stress SEED COUNT
       model trail SCRIPT
       model night FILE
       model post LIST SCRIPT
       model generate-evening SEED
       model generate-asks SEED";

fn print(bytes: &[u8]) -> io::Result<()> {
    let mut output = io::stdout().lock();
    output.write_all(bytes)?;
    output.flush()
}

fn replay(file: Option<&str>) -> io::Result<()> {
    let mut trail = Vec::new();
    match file {
        Some(name) => trail = std::fs::read(name)?,
        None => drop(io::stdin().lock().read_to_end(&mut trail)?),
    }
    print(journal::report(&trail).as_bytes())
}

/// Trails one after the other, each behind its length (4 bytes), as the program replay_run takes them.
fn replay_all() -> io::Result<()> {
    let mut input = Vec::new();
    io::stdin().lock().read_to_end(&mut input)?;
    let (mut rest, mut out) = (&input[..], String::new());
    for number in 1.. {
        let Some((length, behind)) = rest.split_first_chunk() else {
            break;
        };
        let length = behind.len().min(u32::from_le_bytes(*length) as usize);
        let (trail, next) = behind.split_at(length);
        out.push_str(&format!("journal {number}\n{}", journal::report(trail)));
        rest = next;
    }
    print(out.as_bytes())
}

/// What a script of the console meets of a request, a count in each line.
fn met_counts(counts: fn(&[u8]) -> met::Counts, all: &[(&'static str, u32)]) -> io::Result<()> {
    let mut script = Vec::new();
    io::stdin().lock().read_to_end(&mut script)?;
    let counts = counts(&script);
    let count = |key| counts.get(key).copied().unwrap_or_default();
    let lines: Vec<String> = all
        .iter()
        .map(|key| format!("{} {} {}\n", key.0, key.1, count(key)))
        .collect();
    print(lines.concat().as_bytes())
}

fn list_misreadings() -> io::Result<()> {
    let lines: Vec<String> = misread::all()
        .iter()
        .map(|(_, name, meaning)| format!("{name}\t{meaning}\n"))
        .collect();
    print(lines.concat().as_bytes())
}

/// The commands of request 2026-06; `None` if it is none of them.
fn undo_command(words: &[&str]) -> Option<io::Result<ExitCode>> {
    let done = |done: io::Result<()>| done.map(|()| ExitCode::SUCCESS);
    Some(match *words {
        ["undo", n, file, out] => undo::program::undo(console::number(n).ok()?, file, out),
        ["undo-all"] => done(undo::program::undo_all()),
        ["undo-check", n, file] => undo::program::check_command(console::number(n).ok()?, file),
        ["undo-stress", seed, count] => {
            undo::program::stress(console::number(seed).ok()?, console::number(count).ok()?)
        }
        ["--list-undo-misreadings"] => done(undo::program::list_misreadings()),
        ["trail", script] => {
            done(std::fs::read(script).and_then(|script| print(&post::trail(&script))))
        }
        ["night", file] => done(
            std::fs::read(file).and_then(|trail| match post::script(&trail) {
                Ok(script) => print(script.as_bytes()),
                Err(reason) => Err(io::Error::other(reason)),
            }),
        ),
        ["post", list, script] => done(undo::program::post(list, script)),
        ["generate-evening", seed] => {
            done(print(&generate::evening(console::number(seed).ok()?).trail))
        }
        ["generate-asks", seed] => done(print(&undo::program::frames(&generate::asks(
            console::number(seed).ok()?,
        )))),
        _ => return None,
    })
}

fn main() -> ExitCode {
    let arguments: Vec<String> = std::env::args().skip(1).collect();
    let mut words: Vec<&str> = arguments.iter().map(String::as_str).collect();
    if let ["--misread", label, command, ..] = words[..] {
        let known = match command {
            "console" | "registers" | "replay" | "replay-all" | "execute" => misread::choose(label),
            "undo" | "undo-all" | "undo-check" | "undo-stress" => {
                misread::choose(label).or_else(|| undo::misread::choose(label))
            }
            _ => return usage(),
        };
        if known.is_none() {
            eprintln!("model: no misreading {label}");
            return ExitCode::from(2);
        }
        words.drain(..2);
    } else if let ["--check-order", _, ..] = words[..] {
        order::check();
        words.remove(0);
    }
    let seeded =
        |seed: &str, count: &str| Some((console::number(seed).ok()?, console::number(count).ok()?));
    if let Some(done) = undo_command(&words) {
        return ended(done);
    }
    let done = match words[..] {
        ["console"] => {
            let mut console = console::Console::default();
            console::run("console", |line| console.line(line))
        }
        ["registers"] => {
            let mut calls = console::RegisterCalls::default();
            console::run("registers", |line| calls.line(line))
        }
        ["execute"] => {
            let mut execute = console::Execute::default();
            console::run("execute", |line| execute.line(line))
        }
        ["--list-misreadings"] => list_misreadings(),
        ["order-counts"] => met_counts(met::counts, &met::ALL),
        ["size-counts"] => met_counts(met::sizes, &met::all_sizes()),
        ["replay-all"] => replay_all(),
        ["replay"] => replay(None),
        ["replay", file] => replay(Some(file)),
        [what @ ("generate" | "generate-payloads"), seed, count] => match seeded(seed, count) {
            Some((seed, count)) if what == "generate" => {
                print(generate::script(seed, count).as_bytes())
            }
            Some((seed, count)) => print(generate::payloads(seed, count).as_bytes()),
            None => return usage(),
        },
        ["generate-journal", seed] => match console::number(seed) {
            Ok(seed) => print(&generate::journal(seed)),
            Err(_) => return usage(),
        },
        _ => return usage(),
    };
    ended(done.map(|()| ExitCode::SUCCESS))
}

fn ended(done: io::Result<ExitCode>) -> ExitCode {
    match done {
        Ok(code) => code,
        // Whoever reads the output may stop early.
        Err(error) if error.kind() == io::ErrorKind::BrokenPipe => ExitCode::SUCCESS,
        Err(error) => {
            eprintln!("model: {error}");
            ExitCode::from(2)
        }
    }
}

fn usage() -> ExitCode {
    eprintln!("{USAGE}");
    ExitCode::from(2)
}
