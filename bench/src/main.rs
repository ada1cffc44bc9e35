//! How long calls take on the proved device (through its C interface) and on the second implementation, built for release.

mod payload;
mod plain;

use interface::Rocker;
use model::device::{Calls, Device};
use model::frame::LIST;
use model::registers::Refusal;
use payload::{Family, FLOW_ADD, FLOW_MOD};
use plain::Plain;
use std::hint::black_box;
use std::process::{Command, Stdio};
use std::time::Instant;

const SIZE: u64 = 0x1008;
const HEAD: u64 = 0x100c;
const CREDITS: u64 = 0x1018;
const RING: u64 = 512;
const PLACE: usize = 0x8000;
const RECORDS: u64 = 1_000_000;
const ROUTES: u16 = 250;

/// The middle one of the samples, in ns.
fn median(mut samples: Vec<f64>) -> f64 {
    samples.sort_by(f64::total_cmp);
    samples[samples.len() / 2]
}

/// What one of so many runs in a row takes.
fn each(runs: u32, mut run: impl FnMut()) -> f64 {
    let began = Instant::now();
    (0..runs).for_each(|_| run());
    began.elapsed().as_nanos() as f64 / f64::from(runs)
}

fn batch(runs: u32, mut run: impl FnMut()) -> f64 {
    median((0..101).map(|_| each(runs, &mut run)).collect())
}

#[derive(Clone, Copy)]
#[repr(C, align(64))]
struct Entry([u64; 8]);

/// What calls are held to. The machine's speed changes within a run, so a yardstick is laid beside each call that is measured.
struct Yardsticks {
    from: Vec<u8>,
    to: Vec<u8>,
    entries: Vec<Entry>,
}

impl Yardsticks {
    fn new() -> Self {
        Yardsticks {
            from: vec![1; 48 << 10],
            to: vec![0; 48 << 10],
            entries: (0..256).map(|k| Entry([k; 8])).collect(),
        }
    }

    /// A copy of 48 KiB.
    fn copy(&mut self) -> f64 {
        let began = Instant::now();
        self.to.copy_from_slice(black_box(&self.from));
        black_box(&mut self.to);
        began.elapsed().as_nanos() as f64
    }

    /// A search through 256 structs of 64 bytes for one number.
    fn scan(&self) -> f64 {
        each(200, || {
            black_box(position(black_box(&self.entries), black_box(1000)));
        })
    }
}

/// A function of its own, so that the code around it does not change how it is compiled.
#[inline(never)]
fn position(entries: &[Entry], wanted: u64) -> Option<usize> {
    entries.iter().position(|e| e.0[0] == wanted)
}

/// The ns of a call, and of the yardstick beside it, 0 where it has none.
type Measured = (f64, f64);

/// A switch of 62 ports, all up and enabled, with its guest.
struct Host<D> {
    device: D,
    memory: Vec<u8>,
    room: Vec<u8>,
    head: u64,
}

impl<D: Calls> Host<D> {
    fn new() -> Self {
        let mut device = D::fresh(62, 1).expect("62 ports");
        for port in 1..=62 {
            device.link(port, true).expect("a port");
        }
        device.write(8, 0x1000, 0).expect("BASE_ADDR");
        device.write(4, SIZE, RING).expect("SIZE");
        device.write(8, 0x0318, u64::MAX).expect("PORT_PHYS_ENABLE");
        Host {
            device,
            memory: vec![0; 65536],
            room: vec![0; 8192],
            head: 0,
        }
    }

    fn post(&mut self, payload: &[u8]) {
        self.memory[PLACE..PLACE + payload.len()].copy_from_slice(payload);
        let at = 32 * self.head as usize;
        let descriptor = payload::descriptor(PLACE as u64, payload.len());
        self.memory[at..at + 32].copy_from_slice(&descriptor);
        self.head = (self.head + 1) % RING;
        self.device.write(4, HEAD, self.head).expect("HEAD");
    }

    /// Posts a command and processes it; the ns of the process call, and the status.
    fn carry_out(&mut self, payload: &[u8]) -> (f64, u16) {
        self.post(payload);
        let began = Instant::now();
        let done = self.device.work(&mut self.memory, &mut self.room);
        let took = began.elapsed().as_nanos() as f64;
        done.expect("a slot");
        self.device.write(4, CREDITS, 1).expect("CREDITS");
        (took, u16::from_le_bytes([self.room[0], self.room[1]]) % 0x8000)
    }

    fn ok(&mut self, payload: &[u8]) -> f64 {
        let (took, status) = self.carry_out(payload);
        assert_eq!(status, 0, "the status of a command");
        took
    }

    fn with_flows(flows: u64) -> Self {
        let mut host = Self::new();
        for cookie in 1..=flows {
            host.ok(&payload::ingress(FLOW_ADD, cookie));
        }
        host
    }

    /// One flow each in tables 0 and 10, and 248 stations in table 50: the first station's flow has the lowest cookie of them. 62
    /// groups of one port, and a flood of all of them.
    fn bridge() -> Self {
        let mut host = Self::new();
        for port in 1..=62 {
            host.ok(&payload::interface(port));
        }
        host.ok(&payload::flood(1));
        host.ok(&payload::ingress(FLOW_ADD, 1));
        host.ok(&payload::vlan(FLOW_ADD, 2));
        for station in 1..=247 {
            let group = payload::interface_id(2 + station as u32 % 60);
            host.ok(&payload::bridge(FLOW_ADD, 2 + station, payload::mac(station), group));
        }
        // The 250th flow: all stations at once.
        let everybody = [0xff; 6];
        host.ok(&payload::bridge(FLOW_ADD, 250, everybody, payload::flood_id(1)));
        host
    }

    /// One flow each in tables 0, 10 and 20, and 250 routes in table 30 to one neighbour behind port 2: the first network's route has the
    /// lowest cookie of them.
    fn router(family: Family) -> Self {
        let mut host = Self::new();
        host.ok(&payload::interface(2));
        host.ok(&payload::neighbour(2));
        host.ok(&payload::ingress(FLOW_ADD, 1));
        host.ok(&payload::vlan(FLOW_ADD, 2));
        host.ok(&payload::termination(FLOW_ADD, 3, family));
        for network in 1..=ROUTES {
            host.ok(&payload::route(FLOW_ADD, 3 + u64::from(network), family, network, 2));
        }
        host
    }

    /// So many stations in table 50, and ten VLANs in table 10, from 11 on.
    fn two_tables(stations: u64) -> Self {
        let mut host = Self::new();
        for station in 1..=stations {
            let group = payload::interface_id(2 + station as u32 % 60);
            host.ok(&payload::bridge(FLOW_ADD, station, payload::mac(station), group));
        }
        for vlan in 11..=20 {
            host.ok(&payload::vlan_flow(FLOW_ADD, 240 + u64::from(vlan), vlan));
        }
        host
    }

    fn frame(&self, yardsticks: &Yardsticks, frame: &[u8], outputs: usize) -> Measured {
        let mut list = [0; LIST];
        let (mut frames, mut scans) = (Vec::new(), Vec::new());
        for _ in 0..501 {
            frames.push(each(40, || {
                let done = self.device.frame(1, black_box(frame), &mut list);
                assert_eq!(done, Ok(outputs), "the outputs of a frame");
            }));
            scans.push(yardsticks.scan());
        }
        (median(frames), median(scans))
    }
}

/// What each case takes, in the order of `CASES`.
fn cases<D: Calls>() -> Vec<Measured> {
    let mut all = Vec::new();
    let mut yardsticks = Yardsticks::new();
    for flows in [0, 128, 250] {
        let mut host = Host::<D>::with_flows(flows);
        let (last, next) = (flows, flows + 1);
        let (mut mods, mut adds, mut dels, mut copies) = (Vec::new(), Vec::new(), Vec::new(), Vec::new());
        for _ in 0..2000 {
            let (took, status) = host.carry_out(&payload::ingress(FLOW_MOD, last));
            assert_eq!(status, if flows == 0 { 2 } else { 0 });
            mods.push(took);
            adds.push(host.ok(&payload::ingress(FLOW_ADD, next)));
            dels.push(host.ok(&payload::flow_del(next)));
            copies.push(yardsticks.copy());
        }
        let copied = median(copies);
        all.extend([mods, adds, dels].map(|samples| (median(samples), copied)));
    }
    // A cookie that is lower than all: what is live moves up, and down again.
    let mut host = Host::<D>::with_flows(250);
    let (mut adds, mut dels, mut copies) = (Vec::new(), Vec::new(), Vec::new());
    for _ in 0..2000 {
        adds.push(host.ok(&payload::ingress(FLOW_ADD, 0)));
        dels.push(host.ok(&payload::flow_del(0)));
        copies.push(yardsticks.copy());
    }
    let copied = median(copies);
    all.extend([adds, dels].map(|samples| (median(samples), copied)));
    let mut host = Host::<D>::bridge();
    let (mut floods, mut copies) = (Vec::new(), Vec::new());
    for _ in 0..500 {
        floods.push(host.ok(&payload::flood(2)));
        host.ok(&payload::group_del(payload::flood_id(2)));
        copies.push(yardsticks.copy());
    }
    all.push((median(floods), median(copies)));
    let head = batch(1000, || {
        let written = host.device.write(4, HEAD, black_box(host.head));
        assert_eq!(written, Ok(false));
    });
    let credits = batch(1000, || {
        assert!(host.device.read(4, black_box(CREDITS)).is_ok());
    });
    all.extend([(head, 0.0), (credits, 0.0)]);
    all.extend(sizes::<D>());
    all.push(host.frame(&yardsticks, &payload::frame(payload::mac(1)), 1));
    all.push(host.frame(&yardsticks, &payload::frame(payload::mac(247)), 1));
    all.push(host.frame(&yardsticks, &payload::frame(payload::mac(300)), 0));
    all.push(host.frame(&yardsticks, &payload::frame([0xff; 6]), 61));
    for family in [Family::V4, Family::V6] {
        all.extend(routing::<D>(&mut yardsticks, family));
    }
    all
}

/// SIZE written: the sixteen sizes in turn, and numbers with one bit more, which are refused.
fn sizes<D: Calls>() -> [Measured; 2] {
    let mut device = Host::<D>::new().device;
    [(0, Ok(false)), (1, Err(Refusal::Value))].map(|(more, answer)| {
        let mut power = 0;
        let took = batch(1000, || {
            power = power % 16 + 1;
            assert_eq!(device.write(4, SIZE, black_box((1 << power) + more)), answer);
        });
        (took, 0.0)
    })
}

/// A route added, and frames that the first, the last and none of the others decide.
fn routing<D: Calls>(yardsticks: &mut Yardsticks, family: Family) -> Vec<Measured> {
    let mut host = Host::<D>::router(family);
    let (mut adds, mut copies) = (Vec::new(), Vec::new());
    for _ in 0..2000 {
        adds.push(host.ok(&payload::route(FLOW_ADD, 1000, family, 300, 2)));
        host.ok(&payload::flow_del(1000));
        copies.push(yardsticks.copy());
    }
    let mut all = vec![(median(adds), median(copies))];
    for (network, outputs) in [(1, 1), (ROUTES, 1), (300, 0)] {
        all.push(host.frame(yardsticks, &payload::routed_frame(family, network), outputs));
    }
    all
}

const CASES: [&str; 28] = [
    "process, flow mod, 0 live (ENOENT)",
    "process, flow add, 0 live",
    "process, flow del, 1 live",
    "process, flow mod, 128 live",
    "process, flow add, 128 live",
    "process, flow del, 129 live",
    "process, flow mod, 250 live",
    "process, flow add, 250 live",
    "process, flow del, 251 live",
    "process, flow add, 250 live, the lowest cookie",
    "process, flow del, 251 live, the lowest cookie",
    "process, group add, 62 members",
    "HEAD write",
    "CREDITS read",
    "SIZE write, the sixteen sizes in turn",
    "SIZE write, refused",
    "frame, unicast, first of 250 flows",
    "frame, unicast, last of 250 flows",
    "frame, miss, 250 flows",
    "frame, flood of 62",
    "process, flow add, IPv4 route, 253 live",
    "frame, IPv4, first of 250 routes",
    "frame, IPv4, last of 250 routes",
    "frame, IPv4, no route, 250 routes",
    "process, flow add, IPv6 route, 253 live",
    "frame, IPv6, first of 250 routes",
    "frame, IPv6, last of 250 routes",
    "frame, IPv6, no route, 250 routes",
];

/// What finds the flow that decides, on a device with 250 flows: the call for a frame, its search alone, and the plain engine's full scan.
fn deciding() {
    let (bridge, two_tables, ten) = (Host::<Rocker>::bridge(), Host::<Rocker>::two_tables(240), Host::<Rocker>::two_tables(0));
    let rows = [
        ("first of 247 stations in table 50", &bridge, 1, 1),
        ("middle of 247 stations in table 50", &bridge, 124, 1),
        ("last of 247 stations in table 50", &bridge, 247, 1),
        ("miss in table 50, with 248 flows", &bridge, 300, 0),
        ("miss in table 10, with 10 flows, 240 in table 50", &two_tables, 1, 0),
        ("miss in table 10, with 10 flows and no others", &ten, 1, 0),
    ];
    println!("\n| the deciding flow, 250 live but in the last row | frame call, ns | its search, ns | full scan, ns | scan to search |");
    println!("|---|---|---|---|---|");
    for (name, host, station, outputs) in rows {
        let (call, search, scan) = finding(host, station, outputs);
        println!("| {name} | {call:.0} | {search:.0} | {scan:.0} | {:.1} |", scan / search);
    }
}

/// The three in turn.
fn finding(host: &Host<Rocker>, station: u64, outputs: usize) -> (f64, f64, f64) {
    let mac = payload::mac(station);
    let (frame, headers) = (payload::frame(mac), payload::headers(mac));
    let (kept, mut list) = (host.device.kept(), [0; LIST]);
    let plain = Plain::of(&kept);
    assert_eq!(plain::search(&kept, 1, &headers), plain.way(1, &headers), "the way of a frame");
    assert_eq!(plain.way(1, &headers)[0] == 1, outputs > 0);
    let (mut calls, mut searches, mut scans) = (Vec::new(), Vec::new(), Vec::new());
    for _ in 0..501 {
        calls.push(each(40, || {
            let done = host.device.frame(1, black_box(&frame), &mut list);
            assert_eq!(done, Ok(outputs), "the outputs of a frame");
        }));
        searches.push(each(40, || {
            black_box(plain::search(&kept, 1, black_box(&headers)));
        }));
        scans.push(each(40, || {
            black_box(plain.way(1, black_box(&headers)));
        }));
    }
    (median(calls), median(searches), median(scans))
}

/// What `getrusage` gives: the processor time of user and system, each in seconds and microseconds, and 14 numbers more.
#[repr(C)]
struct Usage {
    times: [[i64; 2]; 2],
    more: [i64; 14],
}

extern "C" {
    fn getrusage(who: i32, usage: *mut Usage) -> i32;
}

const OWN: i32 = 0;
const CHILDREN: i32 = -1;

/// The processor time so far, in ns: other programs have less part in it than in the time that passes.
fn processor_time(who: i32) -> f64 {
    let mut usage = Usage {
        times: [[0; 2]; 2],
        more: [0; 14],
    };
    assert_eq!(unsafe { getrusage(who, &mut usage) }, 0);
    usage.times.iter().map(|t| t[0] as f64 * 1e9 + t[1] as f64 * 1e3).sum()
}

/// What a program of target/bin prints.
fn printed(name: &str, words: &[&str]) -> String {
    let program = Command::new(format!("{ROOT}/target/bin/{name}"))
        .args(words)
        .stderr(Stdio::inherit())
        .output()
        .expect("a program of target/bin");
    String::from_utf8_lossy(&program.stdout).into_owned()
}

/// Ns a record of a journal of a million: by a program on a file, and by the second implementation on the same file, five times in turn.
fn a_record(mut program: impl FnMut(), mut model: impl FnMut()) -> (f64, f64) {
    let (mut mine, mut other) = (Vec::new(), Vec::new());
    for _ in 0..5 {
        let began = processor_time(CHILDREN);
        program();
        mine.push((processor_time(CHILDREN) - began) / RECORDS as f64);
        let began = processor_time(OWN);
        model();
        other.push((processor_time(OWN) - began) / RECORDS as f64);
    }
    (median(mine), median(other))
}

fn journal(path: &str) -> Vec<u8> {
    std::fs::read(path).expect("the journal")
}

fn replay(path: &str) -> (f64, f64) {
    let (mut mine, mut other) = (String::new(), String::new());
    let took = a_record(
        || mine = printed("replay", &[path]),
        || other = model::journal::report(&journal(path)),
    );
    assert_eq!(mine, other);
    took
}

/// The list that leads back to the first half of the records, and how many payloads and bytes it has.
fn undo(path: &str) -> ((f64, f64), usize, usize) {
    let (half, out) = (RECORDS / 2, format!("{ROOT}/target/bench.list"));
    let (mut mine, mut room, mut length) = (String::new(), vec![0; 1 << 18], 0);
    let took = a_record(
        || mine = printed("undo", &[&half.to_string(), path, &out]),
        || length = model::undo::undo(&journal(path), half, &mut room).expect("a list"),
    );
    let list = &room[..length];
    let payloads = model::undo::post::payloads(list).expect("payloads").len();
    assert_eq!(mine, format!("payloads {payloads}\nbytes {length}\n"));
    assert!(std::fs::read(&out).expect("the list") == list, "another list");
    std::fs::remove_file(&out).expect("the list");
    (took, payloads, length)
}

fn row(name: &str, (mine, beside): Measured, other: f64) {
    let (yardstick, ratio) = if beside > 0.0 {
        (format!("{beside:.0}"), format!("{:.2}", mine / beside))
    } else {
        Default::default()
    };
    println!("| {name} | {mine:.0} | {other:.0} | {:.2} | {yardstick} | {ratio} |", mine / other);
}

/// What a call is held to: its name in the table, the most of it, and of what.
const AIMS: [(&str, f64, &str); 11] = [
    ("process, flow mod, 250 live", 0.3, COPIES),
    ("process, flow add, 250 live", 0.3, COPIES),
    ("process, flow del, 251 live", 0.3, COPIES),
    ("process, group add, 62 members", 1.0, COPIES),
    ("frame, unicast, first of 250 flows", 1.0, SCANS),
    ("frame, unicast, last of 250 flows", 4.0, SCANS),
    ("frame, miss, 250 flows", 3.0, SCANS),
    ("frame, flood of 62", 6.0, SCANS),
    ("HEAD write", 20.0, "ns"),
    ("CREDITS read", 20.0, "ns"),
    (REPLAY, 350.0, "ns"),
];
const COPIES: &str = "copies of 48 KiB";
const SCANS: &str = "scans";
const REPLAY: &str = "replay, a record of a million";
const UNDO: &str = "undo to the first half, a record of a million";
const ROOT: &str = concat!(env!("CARGO_MANIFEST_DIR"), "/..");

fn main() {
    let (mine, other) = (cases::<Rocker>(), cases::<Device>());
    println!("| call | ns | ns, model | ratio to the model | yardstick beside it, ns | ratio to the yardstick |");
    println!("|---|---|---|---|---|---|");
    let mut measured = Vec::new();
    for ((name, &mine), other) in CASES.into_iter().zip(&mine).zip(&other) {
        row(name, mine, other.0);
        measured.push((name, mine));
    }
    let path = format!("{ROOT}/target/bench.trail");
    std::fs::write(&path, payload::journal(RECORDS)).expect("the journal");
    let bytes = journal(&path).len();
    let (mine, other) = replay(&path);
    row(REPLAY, (mine, 0.0), other);
    measured.push((REPLAY, (mine, 0.0)));
    let ((mine, other), payloads, length) = undo(&path);
    row(UNDO, (mine, 0.0), other);
    std::fs::remove_file(&path).expect("the journal");
    println!("\nThe journal of {RECORDS} records has {bytes} bytes, the list {payloads} payloads and {length} bytes.");
    for (name, ns) in [("undo", mine), ("the model's", other)] {
        let (seconds, rate) = (ns * RECORDS as f64 / 1e9, 1e9 / ns);
        println!("{name}: {seconds:.2} s, {rate:.0} records a second");
    }
    deciding();

    println!("\n| aim | at most | measured | |");
    println!("|---|---|---|---|");
    for (aim, most, unit) in AIMS {
        let &(_, (took, beside)) = measured.iter().find(|m| m.0 == aim).expect("a case");
        let got = if beside > 0.0 { took / beside } else { took };
        let met = if got <= most { "met" } else { "not met" };
        println!("| {aim} | {most} {unit} | {got:.2} | {met} |");
    }
}
