//! Scripts of calls for the console.

use super::commands::*;
use super::Rng;
use crate::console::{hex, Console};
use crate::device::Device;
use crate::frame::LIST;
use crate::registers::Ring;
use crate::tables::{field, EtherType, Match, Prefix, Tables};
use std::fmt::Write as _;

const CONTROL: u64 = 0x300;
const ENABLE: u64 = 0x318;
const BASE: u64 = 0x1000;
const SIZE: u64 = 0x1008;
const HEAD: u64 = 0x100c;
const CTRL: u64 = 0x1014;
const CREDITS: u64 = 0x1018;

/// Seeds whose scripts end with a run up to the limit of the credits.
const CREDIT_SEEDS: u64 = 32;

/// Seeds 0, 4, 8 and so on: many of their commands have what is to be skipped
/// in them, and there are more odd ones (`oddities`).
const SKIPPING_SEEDS: u64 = 4;

/// Seeds 6, 14, 22 and so on: flows that match the same frames are moved about,
/// also while all places are taken (`orders`).
const ORDER_SEEDS: u64 = 8;

/// Seeds 5, 13, 21 and so on: SIZEs on all edges of their test (`sizes`).
const SIZE_SEEDS: u64 = 8;

pub fn script(seed: u64, calls: u64) -> String {
    let mut maker = Script {
        rng: Rng::new(seed).skipping(seed.is_multiple_of(SKIPPING_SEEDS)),
        console: Console::default(),
        out: format!("# calls, seed {seed}\n"),
        calls: 0,
        limit: calls,
        next_buffer: 0,
    };
    let ordering = seed % ORDER_SEEDS == ORDER_SEEDS - 2;
    let sizing = seed % SIZE_SEEDS == SIZE_SEEDS - 3;
    maker.start();
    while maker.calls < calls {
        match () {
            _ if ordering && maker.rng.chance(25) => maker.orders(),
            _ if sizing && maker.rng.chance(5) => {
                maker.sizes();
                maker.new_ring();
            }
            _ => maker.scene(),
        }
    }
    if seed % CREDIT_SEEDS == CREDIT_SEEDS - 1 {
        maker.credit_limit();
    }
    maker.out
}

/// SIZEs on both sides of each edge: powers of two in the range, no ones, a single
/// one below and above it, two and more; ones above bit 31, which are dropped.
fn some_sizes(rng: &mut Rng) -> Vec<u64> {
    let mut powers: Vec<u64> = (3..16).map(|bit| 1 << bit).collect();
    rng.shuffle(&mut powers);
    let above = 1 << rng.range(17, 31);
    let high = rng.range(2, 15);
    let two = 1 << high | 1 << rng.range(0, high - 1);
    let more = rng.range(2, 65_535) | rng.pick(&[7, 0x111, 0x7000]);
    let apart = above | powers[6];
    let many = rng.next() & 0xffff_ffff | 0x5_0000;
    let dropped = rng.next() << 32 | powers[0];
    let alone = 1 << rng.range(32, 63);
    let mut sizes = vec![0, 1, 2, 3, 4, 65_536, 131_072];
    sizes.extend([above, two, more, apart, many, dropped, alone]);
    sizes.extend(&powers[1..6]);
    rng.shuffle(&mut sizes);
    sizes
}

/// Tables of the flows of `orders`.
const RIVAL_TABLES: [u16; 9] = [0, 10, 10, 20, 30, 30, 30, 50, 50];

/// What the flows of `orders` have in common, and the ports that they lead to.
struct Rivals {
    port: u32,
    vlan: u16,
    ethertype: EtherType,
    to: Vec<u8>,
    outs: Vec<u16>,
}

impl Rivals {
    /// One for table 50, tagged and not, and one for table 30.
    fn frames(&self) -> [Vec<u8>; 3] {
        let tag = [&[0x81, 0], &self.vlan.to_be_bytes()[..]].concat();
        let sender = [2, 0, 0, 0, 0, 9];
        let header = match self.ethertype {
            EtherType::Ipv4 => vec![0; 16],
            EtherType::Ipv6 => vec![0; 24],
        };
        let ethertype = self.ethertype.bytes();
        [
            [&MACS[1][..], &sender, &tag, &[8, 6]].concat(),
            [&MACS[1][..], &sender, &[8, 6]].concat(),
            [
                &ROUTERS[0][..],
                &sender,
                &tag,
                &ethertype,
                &header,
                &self.to,
            ]
            .concat(),
        ]
    }
}

struct Script {
    rng: Rng,
    console: Console,
    out: String,
    calls: u64,
    limit: u64,
    /// Where the next payload goes, so that waiting ones are not written over.
    next_buffer: u64,
}

impl Script {
    /// Writes a line down and carries it out; the answer is its first word.
    fn call(&mut self, line: &str) -> Option<u64> {
        let outcome = self.console.line(line.as_bytes());
        self.out.push_str(line);
        self.out.push('\n');
        self.calls += 1;
        outcome.ok()??.split(' ').next()?.parse().ok()
    }

    fn device(&self) -> Device {
        // Every script begins with an accepted fresh.
        self.console.device.clone().expect("a device is there")
    }

    fn tables(&self) -> Tables {
        self.device().tables
    }

    fn ports(&self) -> u64 {
        self.console
            .device
            .as_ref()
            .map_or(1, |d| u64::from(d.registers.ports))
    }

    fn ring(&self) -> Ring {
        self.console
            .device
            .as_ref()
            .map(|d| d.registers.ring)
            .unwrap_or_default()
    }

    fn memory(&self) -> u64 {
        self.console.memory.len() as u64
    }

    fn left(&self) -> u64 {
        self.limit.saturating_sub(self.calls)
    }

    fn number(&mut self, value: u64) -> String {
        if self.rng.chance(50) {
            format!("{value:#x}")
        } else {
            value.to_string()
        }
    }

    fn write(&mut self, width: u64, offset: u64, value: u64) -> Option<u64> {
        let value = self.number(value);
        self.call(&format!("write {width} {offset:#x} {value}"))
    }

    fn read(&mut self, width: u64, offset: u64) {
        self.call(&format!("read {width} {offset:#x}"));
    }

    fn poke(&mut self, address: u64, bytes: &[u8]) {
        self.call(&format!("poke {address:#x} {}", hex(bytes)));
    }

    // -- beginnings

    fn start(&mut self) {
        if self.rng.chance(30) {
            // Calls that come too early.
            let early = [
                "read 4 0",
                "work 6",
                "header 6",
                "link 1 1",
                "frame 1 -",
                "peek 0 0",
            ];
            for line in early {
                self.call(line);
            }
        }
        self.new_memory();
        if self.rng.chance(20) {
            let bad = self
                .rng
                .pick(&["0", "63", "64", "0x100000004", "18446744073709551615"]);
            self.call(&format!("fresh {bad} 1"));
            self.call("read 4 0x304");
        }
        self.new_device();
    }

    fn new_memory(&mut self) {
        let size = match self.rng.range(0, 9) {
            0..=5 => 32_768,
            6 | 7 => self.rng.range(20_000, 65_536),
            8 => 262_144,
            _ => 1_048_576,
        };
        self.call(&format!("memory {size}"));
    }

    fn new_device(&mut self) {
        let ports = some_ports(&mut self.rng);
        let id = self.rng.next();
        self.call(&format!("fresh {ports} {id:#x}"));
        self.open_ports(90);
        self.new_ring();
    }

    /// Brings ports up and enables them, each with the given chance.
    fn open_ports(&mut self, percent: u64) {
        let ports = self.ports();
        for port in 1..=ports {
            let up = u64::from(self.rng.chance(percent));
            let now = self
                .console
                .device
                .as_ref()
                .map_or(0, |d| d.registers.links >> port & 1);
            if up != now {
                self.call(&format!("link {port} {up}"));
            }
        }
        let mut bits = 0u64;
        for port in 0..64 {
            bits |= u64::from(self.rng.chance(percent)) << port;
        }
        self.write_wide(ENABLE, bits);
    }

    /// One write of 8 bytes, or two halves.
    fn write_wide(&mut self, offset: u64, value: u64) {
        if self.rng.chance(60) {
            self.write(8, offset, value);
        } else {
            let noise = if self.rng.chance(50) { 0xabcd << 32 } else { 0 };
            self.write(4, offset, value & 0xffff_ffff | noise);
            self.write(4, offset + 4, value >> 32 | noise);
        }
    }

    fn new_ring(&mut self) {
        let size = match self.rng.range(0, 19) {
            0..=3 => 2,
            4..=7 => 4,
            8..=12 => 8,
            13..=16 => 16,
            17 => 32,
            18 => 128,
            _ => 256,
        };
        let last = (self.memory().saturating_sub(32 * size) / 16).max(1);
        let base = self.rng.range(0, last) * 8;
        if self.rng.chance(50) {
            self.write_wide(BASE, base);
            self.write(4, SIZE, size);
        } else {
            self.write(4, SIZE, size);
            self.write_wide(BASE, base);
        }
        self.next_buffer = base + 32 * size;
    }

    /// A ring that stands in memory with room to spare.
    fn sound_ring(&mut self) {
        if self.memory() < 20_000 {
            self.new_memory();
        }
        let ring = self.ring();
        let end = u128::from(ring.base.value) + 32 * u128::from(ring.size);
        if ring.size < 2 || end + 8_192 > u128::from(self.memory()) {
            self.new_ring();
        }
    }

    // -- slots

    /// A place for a payload, behind the ring and behind those still waiting.
    fn buffer(&mut self, length: usize) -> u64 {
        let ring = self.ring();
        let end = (ring.base.value + 32 * u64::from(ring.size)).div_ceil(8) * 8;
        let length = length as u64;
        if self.next_buffer < end || self.next_buffer + length > self.memory() {
            self.next_buffer = end;
        }
        let at = self.next_buffer;
        self.next_buffer = (at + length).div_ceil(8) * 8;
        at
    }

    fn descriptor(&mut self, address: u64, buf_size: u16, tlv_size: u16) -> Vec<u8> {
        let quiet = self.rng.chance(50);
        let mut bytes = if quiet {
            vec![0; 32]
        } else {
            self.rng.bytes(32)
        };
        bytes[..8].copy_from_slice(&address.to_le_bytes());
        bytes[16..18].copy_from_slice(&buf_size.to_le_bytes());
        bytes[18..20].copy_from_slice(&tlv_size.to_le_bytes());
        bytes
    }

    fn slot_address(&self, slot: u32) -> u64 {
        self.ring().base.value + 32 * u64::from(slot)
    }

    /// The slot that lies `ahead` of HEAD.
    fn slot(&self, ahead: u32) -> u32 {
        let ring = self.ring();
        (ring.head + ahead) % ring.size
    }

    fn stage(&mut self, ahead: u32, payload: &[u8]) {
        let length = payload.len() as u16;
        let extra = if self.rng.chance(80) {
            0
        } else {
            self.rng.range(1, 40) as u16
        };
        let address = self.buffer(payload.len() + usize::from(extra));
        self.poke(address, payload);
        let descriptor = self.descriptor(address, length + extra, length);
        let at = self.slot_address(self.slot(ahead));
        self.poke(at, &descriptor);
    }

    /// Posts payloads, several at a time where the ring has room, and works.
    fn run(&mut self, payloads: &[Vec<u8>]) {
        self.sound_ring();
        let mut rest = payloads;
        while !rest.is_empty() {
            let ring = self.ring();
            let free = u64::from(ring.size - 1 - ring.outstanding());
            if free == 0 {
                self.drain();
                if self.ring().outstanding() > 0 {
                    self.new_ring();
                }
                continue;
            }
            let most = free.min(rest.len() as u64).min(40);
            let count = if self.rng.chance(70) {
                most
            } else {
                self.rng.range(1, most)
            };
            for (ahead, payload) in rest[..count as usize].iter().enumerate() {
                self.stage(ahead as u32, payload);
            }
            let new = self.slot(count as u32);
            self.write(4, HEAD, u64::from(new));
            rest = &rest[count as usize..];
            if self.rng.chance(85) {
                self.drain();
            }
        }
    }

    /// The length of the line that the next work call would write.
    fn line_length(&self) -> Option<usize> {
        let mut memory = self.console.memory.clone();
        let mut room = vec![0; 65_536];
        self.device()
            .work(&mut memory, &mut room)
            .ok()
            .map(|done| done.length)
    }

    /// One work call, now and then with a room that only just does or does not.
    fn work(&mut self) -> Option<u64> {
        if self.rng.chance(8) {
            if let Some(length) = self.line_length() {
                let short = self.rng.pick(&[length - 1, length - 1, 5, 0]);
                self.call(&format!("work {}", short.min(length - 1)));
                return self.call(&format!("work {length}"));
            }
        }
        let room = if self.rng.chance(95) { 4_102 } else { 65_536 };
        self.call(&format!("work {room}"))
    }

    /// Works until nothing is left, then returns some credits.
    fn drain(&mut self) {
        for _ in 0..=self.ring().outstanding() {
            match self.work() {
                Some(0) => {
                    if self.rng.chance(5) {
                        let at = self.slot_address((self.ring().tail.max(1)) - 1);
                        self.call(&format!("peek {at:#x} 32"));
                    }
                }
                Some(4) => self.return_credits(),
                _ => break,
            }
        }
        if self.rng.chance(40) {
            self.return_credits();
        }
    }

    fn return_credits(&mut self) {
        let credits = u64::from(self.ring().credits);
        let some = self.rng.range(0, credits);
        let value = self
            .rng
            .pick(&[credits, credits, some, some, credits + 1, 0, 1]);
        self.write(4, CREDITS, value);
        if self.rng.chance(30) {
            self.read(4, CREDITS);
        }
    }

    // -- scenes

    fn scene(&mut self) {
        if self.rng.skipping > 0 && self.rng.chance(15) {
            return self.oddities();
        }
        match self.rng.range(0, 199) {
            0..=50 => self.commands(),
            51..=55 => self.studios(),
            56..=59 => self.lengths(),
            60..=99 => self.frames(),
            100..=117 => self.probe(),
            118..=125 => self.halves(),
            126..=131 => self.new_ring(),
            132..=141 => self.ports_change(),
            142..=146 => self.odd_lines(),
            147..=149 => self.network(),
            150..=152 => self.studios(),
            153..=157 => self.ties(),
            158..=164 => self.overlap(),
            165..=171 => self.refused_work(),
            172..=174 => self.header(),
            175..=183 => self.faulty_descriptors(),
            184..=187 => self.heads(),
            188 => self.reset(),
            189 => self.outside(),
            190..=191 if self.left() > 900 => {
                let tables = self.tables();
                let fillers = flow_fillers(&mut self.rng, &tables);
                self.run(&fillers);
                self.commands();
                self.frames();
            }
            192..=193 if self.left() > 500 => {
                let tables = self.tables();
                let fillers = group_fillers(&mut self.rng, &tables);
                self.run(&fillers);
                self.commands();
            }
            194..=195 if self.left() > 400 => self.flood(),
            196 if self.left() > 100 => {
                if self.rng.chance(50) {
                    self.new_memory();
                }
                self.new_device();
            }
            197..=198 => self.thin_out(),
            _ => self.return_credits(),
        }
    }

    /// What other scenes meet too seldom: many faults of one command, the edges
    /// of one field, mods whose frames show them, values that are nearly right.
    fn oddities(&mut self) {
        let tables = self.tables();
        let forms = forms(&mut self.rng, &tables);
        let form = self.rng.pick(&forms);
        let mut payloads = Vec::new();
        match self.rng.range(0, 9) {
            0..=2 => {
                payloads = variations(&mut self.rng, &form, tables.ports);
                self.rng.shuffle(&mut payloads);
                payloads.truncate(30);
            }
            3..=5 => {
                for old in &form.fields {
                    let mut values = edge_values(&form, old.kind, tables.ports);
                    self.rng.shuffle(&mut values);
                    for value in values.into_iter().take(4) {
                        let mut other = form.clone();
                        other.set(old.kind, value);
                        payloads.push(other.payload());
                    }
                }
                payloads.extend(nearly_right(&mut self.rng, &tables));
            }
            6 => {
                for form in &forms {
                    if form.code == 5 || form.code == 9 || self.rng.chance(30) {
                        payloads.push(with_skipped(&mut self.rng, form));
                    }
                }
            }
            7 => self.changes(),
            8 => self.odd_ring(),
            _ => self.odd_tags(),
        }
        self.run(&payloads);
    }

    /// A way that leads to the host, then mods of its last flow: every field
    /// that a mod leaves out is gone.
    fn changes(&mut self) {
        self.open_ports(100);
        let tables = self.tables();
        let vlan = vlan(&mut self.rng);
        let port = self.rng.range(1, self.ports()) as u32;
        let host = group_id(0, vlan, 0);
        let flood = group_id(4, vlan, 0x7777);
        let mut list = group(&mut self.rng, &tables, 7, flood);
        list.set(field::GROUP_COUNT, [1, 0]);
        list.set(field::GROUP_IDS, member_list(&[host]));
        let mut way = flow(&mut self.rng, &tables, 3, 0x7000, 10);
        way.fields.retain(|field| field.kind != field::NEW_VLAN_ID);
        way.set(field::PRIORITY, u32::MAX.to_le_bytes());
        way.set(field::IN_PPORT, port.to_le_bytes());
        way.set(field::VLAN_ID, vlan.to_be_bytes());
        way.set(field::GOTO_TBL, [20, 0]);
        let one = group(&mut self.rng, &tables, 7, host);
        self.run(&[one.payload(), list.payload(), way.payload()]);
        self.drain();
        let last = |script: &mut Self, code, mac: Option<[u8; 6]>, id: Option<u32>, goto: u8| {
            let mut command = flow(&mut script.rng, &tables, code, 0x7001, 50);
            command
                .fields
                .retain(|field| ![field::DST_MAC, field::GROUP_ID].contains(&field.kind));
            command.set(field::PRIORITY, u32::MAX.to_le_bytes());
            command.set(field::VLAN_ID, vlan.to_be_bytes());
            command.set(field::GOTO_TBL, [goto, 0]);
            if let Some(mac) = mac {
                command.set(field::DST_MAC, mac);
            }
            if let Some(id) = id {
                command.set(field::GROUP_ID, id.to_le_bytes());
            }
            script.run(&[command.payload()]);
            script.drain();
            for mac in [MACS[0], MACS[1]] {
                let (mac, tag) = (hex(&mac), hex(&vlan.to_be_bytes()));
                script.call(&format!("frame {port} {mac}0200000000098100{tag}0800"));
            }
        };
        last(self, 3, Some(MACS[0]), Some(host), 60);
        let mut mods = [
            (None, Some(flood), 60),
            (Some(MACS[0]), None, 60),
            (Some(MACS[0]), Some(host), 0),
            (Some(MACS[0]), Some(host), 60),
        ];
        self.rng.shuffle(&mut mods);
        for (mac, id, goto) in mods {
            last(self, 4, mac, id, goto);
        }
    }

    /// SIZEs that are right and nearly right, each over a HEAD that is not 0.
    fn sizes(&mut self) {
        for size in some_sizes(&mut self.rng) {
            self.write(4, HEAD, 1);
            self.write(4, SIZE, size);
            self.read(4, SIZE);
            self.read(4, HEAD);
        }
        self.read(4, CREDITS);
    }

    /// The hold of BASE_ADDR over SIZE writes, SIZEs that are nearly right, and
    /// devices that are not made.
    fn odd_ring(&mut self) {
        let low = self.rng.pick(&[8, 0x40, 0x100]);
        self.write(4, BASE, low);
        self.write(4, SIZE, 6);
        self.write(4, SIZE, 4);
        self.write(4, BASE + 4, 0);
        self.read(8, BASE);
        self.write(4, HEAD, 1);
        self.sizes();
        if self.rng.chance(20) {
            self.write(4, 0x10, 3);
            self.write(4, HEAD, 1);
            self.write(4, CONTROL, 1);
            for offset in [0x10, HEAD, HEAD + 4] {
                self.read(4, offset);
            }
            self.open_ports(92);
        }
        let ports = self.rng.pick(&["0", "63", "0x100000001"]);
        self.call(&format!("fresh {ports} 1"));
        self.read(4, 0x304);
        self.write(4, 0, 5);
        self.read(4, 0x10);
        self.write(8, 0x18, 0x1_8000_0001);
        self.read(4, 0x1c);
        self.new_ring();
    }

    /// Frames without a tag that have a VLAN where a tag would have it.
    fn odd_tags(&mut self) {
        for kind in ["9100", "88a8", "8101", "0081", "9200"] {
            let (port, frame) = self.frame();
            let vlan = vlan(&mut self.rng);
            let (macs, vlan) = (hex(&frame[..12]), hex(&vlan.to_be_bytes()));
            self.call(&format!("frame {port} {macs}{kind}{vlan}0800"));
        }
        // A second tag stands where the EtherType would.
        for _ in 0..3 {
            if let Some((port, mut frame)) = self.routed_frame() {
                if frame[12..14] == [0x81, 0] {
                    frame.splice(16..16, [0x81, 0, 0, 1]);
                }
                self.call(&format!("frame {port} {}", hex(&frame)));
            }
        }
    }

    fn commands(&mut self) {
        let count = self.rng.range(1, 6);
        let tables = self.tables();
        let payloads: Vec<Vec<u8>> = (0..count)
            .map(|_| any_payload(&mut self.rng, &tables, 72))
            .collect();
        self.run(&payloads);
    }

    /// A command with other lengths, then as it should be.
    fn lengths(&mut self) {
        let tables = self.tables();
        let mut forms = forms(&mut self.rng, &tables);
        if self.rng.chance(40) {
            forms.retain(|form| form.get(field::GROUP_IDS).is_some());
        }
        let form = self.rng.pick(&forms);
        let mut payloads = length_edges(&mut self.rng, &form);
        self.rng.shuffle(&mut payloads);
        payloads.truncate(14);
        payloads.push(form.payload());
        self.run(&payloads);
    }

    /// Deletes some of what is live, so that tables do not stay full.
    fn thin_out(&mut self) {
        let tables = self.tables();
        let mut payloads = Vec::new();
        for cookie in tables.flows.keys() {
            if self.rng.chance(30) {
                payloads.push(top(
                    5,
                    &encode(&[f(field::COOKIE, cookie.to_le_bytes())], 0, 0),
                ));
            }
        }
        for id in tables.groups.keys() {
            if self.rng.chance(20) {
                payloads.push(top(
                    9,
                    &encode(&[f(field::GROUP_ID, id.to_le_bytes())], 0, 0),
                ));
            }
        }
        self.rng.shuffle(&mut payloads);
        payloads.truncate(self.left() as usize / 4 + 1);
        self.run(&payloads);
    }

    fn frames(&mut self) {
        for _ in 0..self.rng.range(1, 8) {
            let routed = self.rng.chance(45);
            let (mut port, mut frame) = self.some_frame(routed);
            // Most frames match nothing, so some of these are thrown away.
            for _ in 0..6 {
                let copies = self.device().frame(u64::from(port), &frame, &mut [0; LIST]);
                if copies != Ok(0) || self.rng.chance(15) {
                    break;
                }
                (port, frame) = self.some_frame(routed);
            }
            self.send(u64::from(port), frame);
        }
    }

    fn some_frame(&mut self, routed: bool) -> (u32, Vec<u8>) {
        let frame = if routed { self.routed_frame() } else { None };
        frame.unwrap_or_else(|| self.frame())
    }

    /// A frame that table 20 is likely to route, to an address that table 30 is likely to have, with or without a tag, long enough or nearly
    /// so. `None` where table 20 has no flow.
    fn routed_frame(&mut self) -> Option<(u32, Vec<u8>)> {
        let tables = self.tables();
        let mut stops = Vec::new();
        for flow in tables.flows.values() {
            if let Match::Termination {
                port,
                ethertype,
                mac,
                vlan,
            } = flow.matching
            {
                stops.push((port, ethertype, mac, vlan));
            }
        }
        if stops.is_empty() {
            return None;
        }
        // One that a frame can come to is a better choice.
        let tags = |port: u32, inner: u16| -> Vec<u16> {
            let flows = tables.flows.values();
            flows
                .filter_map(|flow| match flow.matching {
                    Match::Vlan {
                        port: p,
                        vlan,
                        new_vlan,
                    } if p == port => (new_vlan.unwrap_or(vlan) == inner).then_some(vlan),
                    _ => None,
                })
                .collect()
        };
        let reached: Vec<_> = stops
            .iter()
            .copied()
            .filter(|(port, _, _, vlan)| !tags(*port, *vlan).is_empty())
            .collect();
        let (port, mut ethertype, mac, vlan) = match reached.is_empty() || self.rng.chance(5) {
            true => self.rng.pick(&stops),
            false => self.rng.pick(&reached),
        };
        let tags = tags(port, vlan);
        let tag = match tags.is_empty() || self.rng.chance(5) {
            true => vlan,
            false => self.rng.pick(&tags),
        };
        if self.rng.chance(8) {
            ethertype = ethertype.other();
        }
        let routes: Vec<Prefix> = tables
            .flows
            .values()
            .filter_map(|flow| match &flow.matching {
                Match::Route {
                    ethertype: own,
                    prefix,
                    ..
                } if *own == ethertype => Some(prefix.clone()),
                _ => None,
            })
            .collect();
        let mut to = address(&mut self.rng, ethertype);
        if !routes.is_empty() && self.rng.chance(85) {
            let prefix = self.rng.pick(&routes);
            let whole = self.rng.chance(40);
            for (at, byte) in to.iter_mut().enumerate() {
                let mask = if whole { 0xff } else { prefix.mask[at] };
                *byte = prefix.address[at] & mask | *byte & !mask;
            }
        }
        match self.rng.range(0, 24) {
            0 => {
                let at = self.rng.index(to.len());
                to[at] ^= 1 << self.rng.range(0, 7);
            }
            // A multicast address, which a route to all takes.
            1 => to[0] = self.rng.pick(&[224, 239, 255]),
            _ => {}
        }
        let mut frame = mac.to_vec();
        if self.rng.chance(4) {
            frame[self.rng.index(6)] ^= 1;
        }
        frame.extend(self.rng.bytes(6));
        if tag != 0 || self.rng.chance(20) {
            let bits = self.rng.pick(&[0u16, 0, 0x1000, 0xf000]);
            frame.extend([0x81, 0x00]);
            frame.extend((tag | bits).to_be_bytes());
        }
        frame.extend(ethertype.bytes());
        let (least, at) = match ethertype {
            EtherType::Ipv4 => (20, 16),
            EtherType::Ipv6 => (40, 24),
        };
        let mut header = self.rng.bytes(least);
        header[at..].copy_from_slice(&to);
        if self.rng.chance(50) {
            header[0] = if least == 20 { 0x45 } else { 0x60 };
        }
        let more = self.rng.range(0, 20) as usize;
        header.extend(self.rng.bytes(more));
        match self.rng.range(0, 15) {
            0 => header.truncate(least - 1),
            1 => header.truncate(least),
            2 => header.resize(least + 1, 0),
            3 => header.truncate(self.rng.range(0, least as u64) as usize),
            _ => {}
        }
        frame.extend(header);
        Some((port, frame))
    }

    /// A frame that is likely to match what is live.
    fn frame(&mut self) -> (u32, Vec<u8>) {
        let tables = self.tables();
        let ways: Vec<(u32, u16, u16)> = tables
            .flows
            .values()
            .filter_map(|flow| match flow.matching {
                Match::Vlan {
                    port,
                    vlan,
                    new_vlan,
                } => Some((port, vlan, new_vlan.unwrap_or(vlan))),
                _ => None,
            })
            .collect();
        let (port, tag, inner) = if !ways.is_empty() && self.rng.chance(88) {
            self.rng.pick(&ways)
        } else {
            let vlan = self.rng.pick(&[0, 1, 2, 7, 100, 4094, 4095]);
            (self.rng.range(1, self.ports()) as u32, vlan, vlan)
        };
        let macs: Vec<[u8; 6]> = tables
            .flows
            .values()
            .filter_map(|flow| match flow.matching {
                Match::Bridge { vlan, mac, .. } if vlan == inner => mac,
                _ => None,
            })
            .collect();
        let mut mac = if !macs.is_empty() && self.rng.chance(80) {
            self.rng.pick(&macs)
        } else {
            self.rng.pick(&MACS)
        };
        if self.rng.chance(4) {
            mac[self.rng.index(6)] ^= 1;
        }
        let mut frame = mac.to_vec();
        frame.extend(self.rng.bytes(6));
        if tag != 0 || self.rng.chance(20) {
            frame.extend([0x81, 0x00]);
            let bits = self.rng.pick(&[0u16, 0, 0x1000, 0xe000, 0xf000]);
            frame.extend((tag | bits).to_be_bytes());
        }
        let inner_type = self
            .rng
            .pick(&[[0x08, 0x00], [0x86, 0xdd], [0x88, 0xa8], [0x81, 0x01]]);
        frame.extend(inner_type);
        let body = self.rng.range(0, 50) as usize;
        frame.extend(self.rng.bytes(body));
        (port, frame)
    }

    /// The frame call, now and then with a fault.
    fn send(&mut self, mut port: u64, mut frame: Vec<u8>) {
        let mut list = String::new();
        match self.rng.range(0, 59) {
            0 => frame.truncate(13),
            1 => frame.truncate(14),
            2 => frame.truncate(17),
            3 => frame.truncate(18),
            4 => frame.resize(9_216, 0x55),
            5 => frame.resize(9_217, 0x55),
            6 => frame.clear(),
            7 => port = 0,
            8 => port = self.ports() + 1,
            9 => port |= 1 << 32,
            10 => list = " 557".to_string(),
            11 => list = " 558".to_string(),
            12 => list = self.rng.pick(&[" 1024", " 559", " 186"]).to_string(),
            13 => list = " 0".to_string(),
            14 => {
                // Several at once.
                frame.truncate(self.rng.range(0, 20) as usize);
                port = self.rng.range(0, self.ports() + 1);
                list = self.rng.pick(&["", " 557"]).to_string();
            }
            _ => {}
        }
        self.call(&format!("frame {port} {}{list}", hex(&frame)));
    }

    /// Reads and writes anywhere, most of them where something stands.
    fn probe(&mut self) {
        for _ in 0..self.rng.range(1, 8) {
            let named = [
                0x0, 0x4, 0x8, 0xc, 0x10, 0x14, 0x18, 0x1c, 0x20, 0x300, 0x304, 0x308, 0x30c,
                0x310, 0x314, 0x318, 0x31c, 0x320, 0x324, 0x328, 0x1000, 0x1004, 0x1008, 0x100c,
                0x1010, 0x1014, 0x1018, 0x101c, 0x1020, 0x1ff8, 0x1ffc, 0x2000, 0x2004,
            ];
            let mut offset = match self.rng.range(0, 9) {
                0..=6 => self.rng.pick(&named),
                7 => self.rng.range(0, 0x7ff) * 4,
                8 => self.rng.range(0, 0x2008),
                _ => self
                    .rng
                    .pick(&[1 << 32, 0x1_0000_0010, u64::MAX, u64::MAX - 3, u64::MAX - 7]),
            };
            let mut width = if self.rng.chance(65) { 4 } else { 8 };
            match self.rng.range(0, 19) {
                0 => {
                    width = self
                        .rng
                        .pick(&[0, 1, 2, 3, 5, 6, 7, 12, 16, 0x1_0000_0004, 1 << 63])
                }
                1 => offset = offset.wrapping_add(self.rng.range(1, 7)),
                _ => {}
            }
            if self.rng.chance(50) {
                self.read(width, offset);
                continue;
            }
            let value = match self.rng.range(0, 5) {
                0 => self.rng.next(),
                1 => self.rng.range(0, 20),
                2 => 1 << self.rng.range(0, 63),
                3 => self
                    .rng
                    .pick(&[0, 2, 3, 6, 65_535, 65_536, 65_537, 131_072, 1 << 32]),
                4 => self.rng.next() << 3,
                _ => self.rng.pick(&[
                    u64::MAX,
                    0x8000_0001,
                    0xffff_fffe,
                    0xffff_ffff,
                    0x8000_0000_8000_0001,
                ]),
            };
            // Resets are rare, or nothing would ever be built up.
            let resets = [CONTROL, CTRL].contains(&offset) && value & 1 == 1;
            let value = if resets && self.rng.chance(85) {
                value & !1
            } else {
                value
            };
            self.write(width, offset, value);
            if self.rng.chance(40) {
                self.read(width, offset);
            }
        }
        let ring = self.ring();
        if ring.size > 0 && ring.base.value > self.memory() && self.rng.chance(80) {
            self.new_ring();
        }
    }

    /// The lower halves of all holds, something that may clear them, and the
    /// upper halves, the last of which show what was held.
    fn holds(&mut self) {
        let mut places = [0x18, ENABLE, BASE];
        self.rng.shuffle(&mut places);
        for place in places {
            let low = self.rng.pick(&[8, 0x1e, 0x40, 0xffff_fff8, 0x2_0000_0030]);
            self.write(4, place, low);
        }
        match self.rng.range(0, 19) {
            0..=2 => drop(self.write(4, CTRL, 1)),
            3..=4 => drop(self.write(4, CONTROL, 1)),
            5..=8 => {
                // Refused twice, then the lower half that was held is wanted.
                let odd = self.rng.pick(&[4, 12, 0x101, 0xffff_ffff]);
                self.write(4, BASE, odd);
                self.write(4, BASE + 4, 0);
                self.write(8, BASE, odd + 1);
                self.write(4, BASE + 4, 1);
                self.read(8, BASE);
            }
            9..=12 => {
                let place = self.rng.pick(&places);
                self.write(8, place, 0x50);
            }
            13 => drop(self.write(4, SIZE, 8)),
            14 => drop(self.write(4, CTRL, 2)),
            _ => {}
        }
        self.rng.shuffle(&mut places);
        for high in [0, 1] {
            for place in places {
                self.write(4, place + 4, high);
                self.read(8, place);
            }
        }
        self.open_ports(92);
        self.new_ring();
    }

    /// Half writes of the 64-bit registers, interleaved with one another.
    fn halves(&mut self) {
        if self.rng.chance(50) {
            return self.holds();
        }
        let places = [0x18, 0x318, BASE, 0x310, 0x320];
        for _ in 0..self.rng.range(3, 10) {
            let place = self.rng.pick(&places);
            let low = self.rng.pick(&[
                0,
                8,
                64,
                0x100,
                12,
                0xffff_fff8,
                0xffff_ffff,
                0x1e,
                0x7_0000_0040,
            ]);
            match self.rng.range(0, 6) {
                0..=2 => self.write(4, place, low),
                3 | 4 => {
                    let high = self.rng.pick(&[0, 0, 0, 1, 0xffff_ffff, 0x3_0000_0000]);
                    self.write(4, place + 4, high)
                }
                5 => {
                    let value = self
                        .rng
                        .pick(&[0, 8, 0x80, 13, u64::MAX, u64::MAX - 7, 0x1e]);
                    self.write(8, place, value)
                }
                _ => {
                    let value = self.rng.pick(&[0, 2, 4]);
                    self.write(4, CTRL, value)
                }
            };
            if self.rng.chance(50) {
                let (width, half) = self.rng.pick(&[(8, 0), (4, 0), (4, 4)]);
                self.read(width, place + half);
            }
        }
        for offset in [HEAD, HEAD + 4, CREDITS] {
            self.read(4, offset);
        }
        if self.rng.chance(70) {
            self.new_ring();
            self.open_ports(92);
        }
    }

    /// Every kind of HEAD, both where work waits and where none does.
    fn heads(&mut self) {
        self.sound_ring();
        if self.rng.chance(20) {
            // The largest ring does not fit into any memory here.
            self.write(4, SIZE, 65_536);
            self.write(4, HEAD, 65_535);
            self.write(4, HEAD, 65_536);
            self.call("work 4102");
            self.new_ring();
        }
        for _ in 0..self.rng.range(3, 8) {
            let size = u64::from(self.ring().size);
            let head = u64::from(self.ring().head);
            let tail = u64::from(self.ring().tail);
            let any = self.rng.range(0, size);
            let new = self.rng.pick(&[
                any,
                any,
                head,
                tail,
                (tail + size - 1) % size,
                size,
                head + 1,
            ]);
            self.write(4, HEAD, new);
            if self.rng.chance(40) {
                self.read(4, HEAD);
            }
            if self.rng.chance(30) {
                self.work();
            }
        }
        self.drain();
    }

    fn ports_change(&mut self) {
        match self.rng.range(0, 5) {
            0 | 1 => {
                let port = self.rng.range(1, self.ports());
                let up = self.rng.range(0, 1);
                self.call(&format!("link {port} {up}"));
            }
            2 => {
                let over = self.ports() + 1;
                let port = self.rng.pick(&[0, over, 63, 64, 1 << 32 | 1, u64::MAX]);
                self.call(&format!("link {port} 1"));
            }
            3 => self.open_ports(75),
            4 => self.open_ports(100),
            _ => {
                let bits = self.rng.next() | self.rng.next();
                self.write_wide(ENABLE, bits);
            }
        }
        self.read(8, 0x310);
        self.read(8, ENABLE);
        self.frames();
    }

    /// Lines that are no calls, and calls that are written in other ways.
    fn odd_lines(&mut self) {
        let long = format!("poke 0 {}", "00".repeat(32_764));
        assert_eq!(long.len(), 65_535);
        let end = self.memory();
        let lines = [
            "".to_string(),
            "# passed over".to_string(),
            " ".to_string(),
            " read 4 0".to_string(),
            "read 4 0 ".to_string(),
            "read  4 0".to_string(),
            "read\t4 0".to_string(),
            "read 4".to_string(),
            "read 4 0 0".to_string(),
            "READ 4 0".to_string(),
            "read +4 0".to_string(),
            "read -4 0".to_string(),
            "read 4 0x".to_string(),
            "read 4 0X10".to_string(),
            "read 4 0xg".to_string(),
            "read 4 0x1F0".to_string(),
            "read 04 0x00000000000000000010".to_string(),
            "read 4 18446744073709551616".to_string(),
            "read 4 0x10000000000000000".to_string(),
            "read 4 18446744073709551615".to_string(),
            "read 1e1 0".to_string(),
            "write 4 0x10".to_string(),
            "write 4 0x10 18446744073709551616".to_string(),
            "work".to_string(),
            "work 65537".to_string(),
            "work -".to_string(),
            "header 65537".to_string(),
            "link 1 2".to_string(),
            "link 1".to_string(),
            "frame 1".to_string(),
            "frame 1 0".to_string(),
            "frame 1 0g".to_string(),
            "frame 1 00 1025".to_string(),
            "frame 1 00 558 1".to_string(),
            "fresh 4".to_string(),
            "fresh 4 18446744073709551616".to_string(),
            "memory 1048577".to_string(),
            "memory -1".to_string(),
            format!("peek {end} 0"),
            format!("peek {end} 1"),
            format!("peek {} 0", end + 1),
            format!("peek {} 1", end - 1),
            "peek 18446744073709551615 1".to_string(),
            "peek 1 18446744073709551615".to_string(),
            format!("poke {end} -"),
            format!("poke {} -", end + 1),
            format!("poke {} 0000", end - 1),
            "poke 0 000".to_string(),
            "poke 0".to_string(),
            "poke 0 --".to_string(),
            format!("{long}0"),
            format!("#{long}"),
            "nothing".to_string(),
            "read 4 0 # not a comment".to_string(),
        ];
        for _ in 0..self.rng.range(1, 4) {
            let line = self.rng.pick(&lines);
            self.call(&line);
        }
        if self.rng.chance(5) && self.memory() > 100_000 {
            self.call(&long);
        }
    }

    /// A VLAN whose ports, groups and flows hang together.
    fn network(&mut self) {
        if self.rng.chance(60) {
            self.open_ports(95);
        }
        let tables = self.tables();
        let ports = tables.ports as u16;
        let vlan = vlan(&mut self.rng);
        let mut payloads = Vec::new();
        let mut members = Vec::new();
        for _ in 0..self.rng.range(2, 6) {
            let id = group_id(0, vlan, self.rng.range(0, u64::from(ports)) as u16);
            if !members.contains(&id) {
                members.push(id);
            }
            payloads.push(group(&mut self.rng, &tables, 7, id).payload());
        }
        let flood = group_id(4, vlan, self.rng.range(0, 2) as u16);
        let multicast = group_id(3, vlan, self.rng.range(0, 2) as u16);
        for id in [flood, multicast] {
            self.rng.shuffle(&mut members);
            let mut command = group(&mut self.rng, &tables, 7, id);
            command.set(field::GROUP_COUNT, (members.len() as u16).to_le_bytes());
            command.set(field::GROUP_IDS, member_list(&members));
            payloads.push(command.payload());
        }
        for _ in 0..3 {
            let port = self.rng.range(1, u64::from(ports)) as u32;
            let mut command = flow(&mut self.rng, &tables, 3, 0, 10);
            command.set(field::COOKIE, cookie(&mut self.rng).to_le_bytes());
            command.set(field::IN_PPORT, port.to_le_bytes());
            command.set(field::GOTO_TBL, 20u16.to_le_bytes());
            command
                .fields
                .retain(|field| field.kind != field::NEW_VLAN_ID);
            if self.rng.chance(50) {
                command.set(field::VLAN_ID, vlan.to_be_bytes());
            } else {
                command.set(field::VLAN_ID, [0, 0]);
                command.set(field::NEW_VLAN_ID, vlan.to_be_bytes());
            }
            payloads.push(command.payload());
        }
        let unicast = self.rng.pick(&members);
        for (mac, id) in [
            (None, flood),
            (Some(MACS[3]), multicast),
            (Some(MACS[4]), flood),
            (Some(MACS[0]), unicast),
        ] {
            let mut command = flow(&mut self.rng, &tables, 3, 0, 50);
            command.fields.retain(|field| field.kind != field::DST_MAC);
            command.set(field::COOKIE, cookie(&mut self.rng).to_le_bytes());
            command.set(field::VLAN_ID, vlan.to_be_bytes());
            let goto = self.rng.pick(&[60u16, 60, 60, 60, 60, 0]);
            command.set(field::GOTO_TBL, goto.to_le_bytes());
            command.set(field::GROUP_ID, id.to_le_bytes());
            if let Some(mac) = mac {
                command.set(field::DST_MAC, mac);
            }
            payloads.push(command.payload());
        }
        self.run(&payloads);
        self.drain();
        self.frames();
        self.frames();
    }

    /// Flows that match the same frames with the same priority, added in any
    /// order, some with the lower cookie last.
    fn ties(&mut self) {
        let tables = self.tables();
        let ports = u64::from(tables.ports);
        let vlan = vlan(&mut self.rng);
        let table = self.rng.pick(&[0, 10, 30, 30, 50, 50]);
        if table == 30 {
            return self.route_ties();
        }
        let port = self.rng.range(1, ports) as u32;
        let mut cookies: Vec<u64> = (0..self.rng.range(2, 5))
            .map(|_| cookie(&mut self.rng))
            .collect();
        cookies.dedup();
        let mut payloads = Vec::new();
        for cookie in cookies {
            let mut command = flow(&mut self.rng, &tables, 3, cookie, table);
            let priority = self.rng.pick(&[5u32, 5, 5, 6, 0x8000_0005]);
            command.set(field::PRIORITY, priority.to_le_bytes());
            match table {
                0 => {
                    command.set(field::IN_PPORT, port.to_le_bytes());
                    let goto = self.rng.pick(&[0u16, 10]);
                    command.set(field::GOTO_TBL, goto.to_le_bytes());
                }
                10 => {
                    let new = self.rng.pick(&VLANS);
                    command.set(field::IN_PPORT, port.to_le_bytes());
                    command.set(field::VLAN_ID, [0, 0]);
                    command.set(field::NEW_VLAN_ID, new.to_be_bytes());
                    let goto = self.rng.pick(&[0u16, 20, 20]);
                    command.set(field::GOTO_TBL, goto.to_le_bytes());
                }
                _ => {
                    let id = group_id(0, vlan, self.rng.range(0, ports) as u16);
                    command.set(field::VLAN_ID, vlan.to_be_bytes());
                    command.set(field::DST_MAC, MACS[1]);
                    command.set(field::GROUP_ID, id.to_le_bytes());
                    payloads.push(group(&mut self.rng, &tables, 7, id).payload());
                }
            }
            payloads.push(command.payload());
        }
        if table != 0 {
            let mut way = flow(&mut self.rng, &tables, 3, 900 + u64::from(port), 10);
            way.fields.retain(|field| field.kind != field::NEW_VLAN_ID);
            way.set(field::IN_PPORT, port.to_le_bytes());
            way.set(field::VLAN_ID, vlan.to_be_bytes());
            payloads.push(way.payload());
        }
        self.run(&payloads);
        self.drain();
        for tag in [0, vlan] {
            let mut frame = MACS[1].to_vec();
            frame.extend([2, 0, 0, 0, 0, 9]);
            if tag != 0 {
                frame.extend([0x81, 0]);
                frame.extend(tag.to_be_bytes());
            }
            frame.extend([8, 0]);
            self.call(&format!("frame {port} {}", hex(&frame)));
        }
        self.frames();
    }

    /// A studio's way to its router: a flow of table 10, one of table 20 for each EtherType, and perhaps the same MAC bridged.
    fn stop(&mut self, port: u32, tag: u16, vlan: u16, mac: [u8; 6]) -> Vec<Vec<u8>> {
        let tables = self.tables();
        let mut out = Vec::new();
        let mut way = flow(&mut self.rng, &tables, 3, 0x2000 + u64::from(port), 10);
        way.fields.retain(|field| field.kind != field::NEW_VLAN_ID);
        way.set(field::IN_PPORT, port.to_le_bytes());
        way.set(field::VLAN_ID, tag.to_be_bytes());
        way.set(field::GOTO_TBL, [20, 0]);
        if tag == 0 {
            way.set(field::NEW_VLAN_ID, vlan.to_be_bytes());
        }
        out.push(way.payload());
        for (k, ethertype) in (0..).zip([EtherType::Ipv4, EtherType::Ipv6]) {
            let cookie = 0x2100 + 2 * u64::from(port) + k;
            let mut command = flow(&mut self.rng, &tables, 3, cookie, 20);
            command.set(field::IN_PPORT, port.to_le_bytes());
            command.set(field::ETHERTYPE, ethertype.bytes());
            command.set(field::DST_MAC, mac);
            command.set(field::VLAN_ID, vlan.to_be_bytes());
            out.push(command.payload());
        }
        out
    }

    /// A group of type 2 that leads to a port, with MACs of its own.
    fn neighbour(&mut self, index: u32, lower: u32) -> Vec<u8> {
        let tables = self.tables();
        let mut command = group(&mut self.rng, &tables, 7, route_id(index));
        command.set(field::GROUP_ID_LOWER, lower.to_le_bytes());
        command.set(field::VLAN_ID, crate::tables::id_vlan(lower).to_be_bytes());
        command.set(field::SRC_MAC, ROUTERS[0]);
        command.set(field::DST_MAC, [2, 0x55, 0, 0, index as u8, lower as u8]);
        command.payload()
    }

    fn route(
        &mut self,
        cookie: u64,
        ethertype: EtherType,
        prefix: &Prefix,
        id: Option<u32>,
    ) -> Command {
        let tables = self.tables();
        let mut command = route_command(&mut self.rng, &tables, cookie, ethertype, prefix, id);
        let goto = self.rng.pick(&[60u16, 60, 60, 60, 60, 60, 60, 0]);
        command.set(field::GOTO_TBL, goto.to_le_bytes());
        command
    }

    /// Studios in VLANs of their own, a router between them, prefixes that overlap, and frames to all of them.
    fn studios(&mut self) {
        if self.rng.chance(70) {
            self.open_ports(95);
        }
        let tables = self.tables();
        let ports = u64::from(tables.ports);
        let (first, second) = (vlan(&mut self.rng), vlan(&mut self.rng));
        let mac = self.rng.pick(&ROUTERS);
        let mut payloads = Vec::new();
        let port = self.rng.range(1, ports) as u32;
        let tag = self.rng.pick(&[0, first]);
        payloads.extend(self.stop(port, tag, first, mac));
        let mut lowers = vec![group_id(0, first, port as u16), group_id(0, second, 0)];
        for vlan in [first, second] {
            lowers.push(group_id(0, vlan, self.rng.range(0, ports) as u16));
        }
        for lower in &lowers {
            payloads.push(group(&mut self.rng, &tables, 7, *lower).payload());
        }
        // One of them is not there.
        lowers.push(group_id(0, second, 0x1234));
        let mut indices = Vec::new();
        for lower in lowers {
            let index = route_index(&mut self.rng);
            indices.push(route_id(index));
            payloads.push(self.neighbour(index, lower));
        }
        indices.push(route_id(0x0777_7777));
        self.run(&payloads);
        self.drain();
        let mut payloads = Vec::new();
        for _ in 0..self.rng.range(3, 9) {
            let ethertype = ethertype(&mut self.rng);
            let prefix = prefix(&mut self.rng, ethertype);
            let id = match self.rng.chance(92) {
                true => Some(self.rng.pick(&indices)),
                false => None,
            };
            let cookie = cookie(&mut self.rng);
            let command = self.route(cookie, ethertype, &prefix, id);
            payloads.push(command.payload());
        }
        self.run(&payloads);
        self.drain();
        for _ in 0..self.rng.range(4, 10) {
            if let Some((port, frame)) = self.routed_frame() {
                self.call(&format!("frame {port} {}", hex(&frame)));
            }
        }
        if self.rng.chance(50) {
            self.mod_of_a_route(port, if tag == 0 { None } else { Some(tag) }, mac);
        }
        if self.rng.chance(40) {
            // The lower groups, or the neighbours, go: their routes give nothing.
            let id = self.rng.pick(&indices);
            let del = top(9, &encode(&[f(field::GROUP_ID, id.to_le_bytes())], 0, 0));
            self.run(&[del]);
            self.drain();
            self.frames();
        }
    }

    /// A route to all that leads to the host, then mods of it: what a mod leaves out is gone.
    fn mod_of_a_route(&mut self, port: u32, tag: Option<u16>, mac: [u8; 6]) {
        let ethertype = ethertype(&mut self.rng);
        let (_, width) = ethertype.pair();
        let vlan = vlan(&mut self.rng);
        let host = group_id(0, vlan, 0);
        let tables = self.tables();
        let one = group(&mut self.rng, &tables, 7, host).payload();
        let near = self.neighbour(0x0aaa_aaaa, host);
        let to = address(&mut self.rng, ethertype);
        let prefix = |first: u8, ones: u32| Prefix {
            address: [&[first & 0x7f], &to[1..]].concat(),
            mask: mask(width, ones),
        };
        let id = Some(route_id(0x0aaa_aaaa));
        let whole = 8 * width as u32;
        self.run(&[one, near]);
        let mut codes = [3u16].into_iter().chain([4; 4]);
        for (first, ones, id) in [
            (to[0], whole, id),
            (to[0], whole, None),
            (to[0], whole, id),
            (to[0] ^ 1, whole, id),
            (to[0], whole - 1, id),
        ] {
            let mut command = self.route(0x7002, ethertype, &prefix(first, ones), id);
            command.code = codes.next().unwrap_or(4);
            command.set(field::GOTO_TBL, [60, 0]);
            self.run(&[command.payload()]);
            self.drain();
            let mut frame = [&mac[..], &[2, 0, 0, 0, 0, 9]].concat();
            if let Some(tag) = tag {
                frame.extend([0x81, 0]);
                frame.extend(tag.to_be_bytes());
            }
            let least = if width == 4 { 16 } else { 24 };
            frame.extend(ethertype.bytes());
            frame.extend(vec![0; least]);
            frame.extend([&[to[0] & 0x7f], &to[1..]].concat());
            self.call(&format!("frame {port} {}", hex(&frame)));
        }
    }

    /// Routes for one address: prefixes of several lengths, some of them equal, with priorities that would decide otherwise.
    fn route_ties(&mut self) {
        let tables = self.tables();
        let ports = u64::from(tables.ports);
        let vlan = vlan(&mut self.rng);
        let port = self.rng.range(1, ports) as u32;
        let mut payloads = self.stop(port, vlan, vlan, ROUTERS[0]);
        let host = group_id(0, vlan, 0);
        payloads.push(group(&mut self.rng, &tables, 7, host).payload());
        let ethertype = ethertype(&mut self.rng);
        let (_, width) = ethertype.pair();
        let mut to = address(&mut self.rng, ethertype);
        to[0] &= 0x7f;
        let lengths: Vec<u32> = match width {
            4 => vec![0, 8, 8, 9, 16, 23, 24, 24, 31, 32, 32],
            _ => vec![0, 32, 33, 64, 64, 65, 127, 128, 128],
        };
        for index in 0..self.rng.range(3, 7) as u32 {
            payloads.push(self.neighbour(index, host));
            let prefix = Prefix {
                address: to.clone(),
                mask: mask(width, self.rng.pick(&lengths)),
            };
            let cookie = cookie(&mut self.rng);
            let mut command = self.route(cookie, ethertype, &prefix, Some(route_id(index)));
            let priority = self.rng.pick(&[5u32, 5, 5, 6, 0x8000_0005]);
            command.set(field::PRIORITY, priority.to_le_bytes());
            payloads.push(command.payload());
        }
        self.rng.shuffle(&mut payloads);
        self.run(&payloads);
        self.drain();
        let (least, at) = if width == 4 { (20, 16) } else { (40, 24) };
        for flipped in [None, Some(width - 1), Some(1)] {
            let mut header = vec![0; least];
            header[at..].copy_from_slice(&to);
            if let Some(byte) = flipped {
                header[at + byte] ^= 1;
            }
            let mut frame = [&ROUTERS[0][..], &[2, 0, 0, 0, 0, 9], &[0x81, 0]].concat();
            frame.extend(vlan.to_be_bytes());
            frame.extend(ethertype.bytes());
            frame.extend(header);
            self.call(&format!("frame {port} {}", hex(&frame)));
        }
        self.frames();
    }

    /// Flows of all tables that match the same frames, added, moved about and deleted one by one, with the frames behind each. At times all
    /// 256 places are taken, so that every add comes to one that was freed.
    fn orders(&mut self) {
        if self.rng.chance(70) {
            self.open_ports(95);
        }
        if self.tables().flows.len() > 230 {
            self.thin_out();
        }
        let tables = self.tables();
        let ports = u64::from(tables.ports);
        let ethertype = ethertype(&mut self.rng);
        let mut rivals = Rivals {
            port: self.rng.range(1, ports) as u32,
            vlan: vlan(&mut self.rng),
            ethertype,
            to: address(&mut self.rng, ethertype),
            outs: vec![0],
        };
        rivals.to[0] &= 0x7f;
        let mut payloads = self.stop(rivals.port, rivals.vlan, rivals.vlan, ROUTERS[0]);
        for index in 0..4 {
            rivals.outs.push(self.rng.range(0, ports) as u16);
            let lower = group_id(0, rivals.vlan, rivals.outs[index]);
            payloads.push(group(&mut self.rng, &tables, 7, lower).payload());
            payloads.push(self.neighbour(index as u32, lower));
        }
        if self.rng.chance(60) {
            // What else table 0 has does not drop them then.
            let mut way = flow(&mut self.rng, &tables, 3, 0x3000, 0);
            way.set(field::PRIORITY, [0xff; 4]);
            way.set(field::IN_PPORT_MASK, [0; 4]);
            way.set(field::GOTO_TBL, [10, 0]);
            payloads.push(way.payload());
        }
        let cookies: Vec<u64> = (0..self.rng.range(4, 9))
            .map(|_| cookie(&mut self.rng))
            .collect();
        for cookie in &cookies {
            let table = self.rng.pick(&RIVAL_TABLES);
            payloads.push(self.rival(&rivals, 3, *cookie, table));
        }
        if self.left() > 1_300 && self.rng.chance(35) {
            let fillers = match self.rng.chance(50) {
                true => flow_fillers(&mut self.rng, &tables),
                false => stations(&mut self.rng, &tables),
            };
            payloads.extend(fillers);
        }
        self.run(&payloads);
        self.drain();
        for _ in 0..self.rng.range(8, 20) {
            let cookie = self.rng.pick(&cookies);
            let live = self.tables().flows.get(&cookie).map(|flow| flow.table());
            let code = match live {
                Some(_) => self.rng.pick(&[4, 4, 4, 4, 5, 5, 3]),
                None => self.rng.pick(&[3, 3, 3, 4]),
            };
            let table = match live.filter(|_| self.rng.chance(65)) {
                Some(table) => table,
                None => self.rng.pick(&RIVAL_TABLES),
            };
            let payload = self.rival(&rivals, code, cookie, table);
            self.run(&[payload]);
            self.drain();
            for frame in rivals.frames() {
                self.call(&format!("frame {} {}", rivals.port, hex(&frame)));
            }
        }
    }

    /// An add, mod or del of a flow that matches the frames of `orders`.
    fn rival(&mut self, rivals: &Rivals, code: u16, cookie: u64, table: u16) -> Vec<u8> {
        if code == 5 {
            let key = f(field::COOKIE, cookie.to_le_bytes());
            return top(5, &encode(&[key], 0, 0));
        }
        let tables = self.tables();
        let index = self.rng.index(rivals.outs.len() - 1);
        let mut command = flow(&mut self.rng, &tables, code, cookie, table);
        match table {
            0 => {
                command.set(field::IN_PPORT, rivals.port.to_le_bytes());
                let goto = self.rng.pick(&[10u16, 10, 10, 0]);
                command.set(field::GOTO_TBL, goto.to_le_bytes());
            }
            10 => {
                let tag = self.rng.pick(&[0, rivals.vlan]);
                let own = |kind: u32| kind != field::NEW_VLAN_ID;
                command.fields.retain(|field| own(field.kind));
                command.set(field::IN_PPORT, rivals.port.to_le_bytes());
                command.set(field::VLAN_ID, tag.to_be_bytes());
                if tag == 0 {
                    let new = self.rng.pick(&[rivals.vlan, rivals.vlan, VLANS[0]]);
                    command.set(field::NEW_VLAN_ID, new.to_be_bytes());
                }
            }
            20 => {
                command.set(field::IN_PPORT, rivals.port.to_le_bytes());
                command.set(field::ETHERTYPE, rivals.ethertype.bytes());
                command.set(field::DST_MAC, ROUTERS[0]);
                command.set(field::VLAN_ID, rivals.vlan.to_be_bytes());
            }
            30 => {
                let (_, width) = rivals.ethertype.pair();
                let ones = self.rng.pick(&[0, 8, 16, 24, 24, 24, 31, 32]);
                let prefix = Prefix {
                    address: rivals.to.clone(),
                    mask: mask(width, ones * width as u32 / 4),
                };
                let id = Some(route_id(index as u32));
                command = self.route(cookie, rivals.ethertype, &prefix, id);
                command.code = code;
            }
            _ => {
                let id = group_id(0, rivals.vlan, rivals.outs[index]);
                command.set(field::VLAN_ID, rivals.vlan.to_be_bytes());
                command.set(field::DST_MAC, MACS[1]);
                command.set(field::GROUP_ID, id.to_le_bytes());
            }
        }
        let priority = self.rng.pick(&[0u32, 4, 5, 5, 5, 6, 0x8000_0005]);
        command.set(field::PRIORITY, priority.to_le_bytes());
        command.payload()
    }

    /// A payload that holds its own descriptor, whose stamp falls into it.
    fn overlap(&mut self) {
        self.sound_ring();
        self.drain();
        let ring = self.ring();
        if ring.outstanding() > 0 || ring.size < 2 {
            return;
        }
        let slot = self.slot(0);
        let at = self.slot_address(slot);
        let tables = self.tables();
        let command = command(&mut self.rng, &tables).payload();
        let stamp = self.rng.next() as u16;
        let mut bytes = Vec::new();
        if self.rng.chance(50) {
            // The payload begins with the head of a TLV over the descriptor, or
            // with the descriptor. Then the address reads as a type and as a
            // length of 0, which is ill formed.
            let before: u64 = if at < 8 { 0 } else { self.rng.pick(&[8, 8, 0]) };
            if before > 0 {
                bytes.extend([99, 0, 0, 0, 40, 0, 0, 0]);
            }
            bytes.extend((at - before).to_le_bytes());
            bytes.extend([99, 0, 0, 0, 24, 0, 0, 0]);
            let length = before as u16 + (32 + command.len()) as u16;
            bytes.extend(length.to_le_bytes());
            bytes.extend(length.to_le_bytes());
            bytes.extend([0; 10]);
            bytes.extend(stamp.to_le_bytes());
            bytes.extend(&command);
            self.poke(at - before, &bytes);
        } else {
            // The payload stands before the descriptor and ends with it; the
            // stamp is the pad of its last TLV.
            if at < 8 + command.len() as u64 {
                return;
            }
            let start = at - 8 - command.len() as u64;
            let length = (command.len() + 8 + 32) as u16;
            bytes.extend(&command);
            bytes.extend([77, 0, 0, 0, 32, 0, 0, 0]);
            bytes.extend(start.to_le_bytes());
            bytes.extend([0; 8]);
            bytes.extend(length.to_le_bytes());
            bytes.extend(length.to_le_bytes());
            bytes.extend([0; 4]);
            bytes.extend([78, 0, 0, 0, 8, 0]);
            bytes.extend(stamp.to_le_bytes());
            self.poke(start, &bytes);
        }
        let new = self.slot(1);
        self.write(4, HEAD, u64::from(new));
        self.work();
        self.call(&format!("peek {at:#x} 32"));
        self.return_credits();
    }

    /// Work where none is, with rooms too short, with descriptors outside.
    fn refused_work(&mut self) {
        self.sound_ring();
        self.drain();
        match self.rng.range(0, 5) {
            0 => {
                self.call("work 0");
                self.call("work 4102");
            }
            1 => {
                // The end of the ring stands outside memory.
                let size = self.rng.pick(&[2u64, 4, 8]);
                let fit = self.rng.range(0, size - 1);
                let short = self.rng.pick(&[8, 24, 32]);
                let base = (self.memory() / 8 * 8).saturating_sub(32 * fit + 32 - short);
                self.write_wide(BASE, base);
                self.write(4, SIZE, size);
                self.write(4, HEAD, size - 1);
                for _ in 0..size {
                    self.call("work 4102");
                }
                self.call("work 5");
                self.new_ring();
            }
            2 => {
                let base = self
                    .rng
                    .pick(&[u64::MAX - 7, u64::MAX - 31, 1 << 63, 1 << 32]);
                self.write_wide(BASE, base);
                self.write(4, HEAD, 1);
                self.call("work 4102");
                self.call("work 0");
                self.read(8, BASE);
                self.new_ring();
            }
            3 => {
                // Work without a ring.
                self.write(4, CTRL, 1);
                self.call("work 4102");
                self.write(4, HEAD, 0);
                self.write(4, HEAD, 1);
                self.new_ring();
            }
            4 => {
                // The memory shrinks under waiting slots.
                let tables = self.tables();
                let payload = any_payload(&mut self.rng, &tables, 90);
                self.stage(0, &payload);
                let new = self.slot(1);
                self.write(4, HEAD, u64::from(new));
                let end = self.slot_address(self.slot(0)) + 32;
                let cut = self.rng.pick(&[0, 1, 31]);
                self.call(&format!("memory {}", end.saturating_sub(cut)));
                self.call("work 4102");
                self.call("work 3");
                self.new_memory();
                self.work();
            }
            _ => {
                let tables = self.tables();
                let payload = any_payload(&mut self.rng, &tables, 90);
                self.stage(0, &payload);
                let new = self.slot(1);
                self.write(4, HEAD, u64::from(new));
                let Some(length) = self.line_length() else {
                    return;
                };
                for room in [0, 5, 6, length - 1] {
                    if room < length {
                        self.call(&format!("work {room}"));
                    }
                }
                self.call(&format!("work {length}"));
                self.call("work 0");
            }
        }
    }

    fn header(&mut self) {
        let room = self.rng.pick(&[0, 1, 5, 6, 6, 7, 65_536]);
        self.call(&format!("header {room}"));
    }

    /// Descriptors whose buffer or sizes are at fault, and the edges of these.
    fn faulty_descriptors(&mut self) {
        self.sound_ring();
        for _ in 0..self.rng.range(1, 3) {
            self.drain();
            if self.ring().outstanding() > 0 {
                return;
            }
            let end = self.memory();
            let aligned = end / 8 * 8;
            let tables = self.tables();
            let payload = any_payload(&mut self.rng, &tables, 80);
            let length = payload.len() as u16;
            let buffer = self.buffer(4_200);
            let rest = (end - aligned) as u16;
            let (address, buf_size, tlv_size) = match self.rng.range(0, 15) {
                0 => (buffer + self.rng.range(1, 7), length, length),
                1 => (aligned, rest, rest),
                2 => (aligned, rest + 1, 0),
                3 => (aligned + 8, 0, 0),
                4 => (u64::MAX - 7, self.rng.pick(&[0, 7, 8, 16, 0xffff]), 0),
                5 => (1 << 32 | buffer, length, length),
                6 => (buffer, length, length + 1),
                7 => (buffer, 0, 1),
                8 => (buffer, 4_096, 4_096),
                9 => (buffer, 4_097, 4_097),
                10 => (buffer, 4_096, 4_097),
                11 => (buffer, 5_000, length),
                12 => (0, end.min(65_535) as u16, end.min(65_535) as u16),
                13 => (aligned - 8, 8 + rest, 8),
                14 => (buffer + 4, length, length + 1),
                _ => (buffer, length, 0),
            };
            let mut bytes = payload.clone();
            if buf_size == 4_096 && tlv_size == 4_096 {
                // A payload of the greatest length: a command and one TLV that
                // is skipped.
                let length = 4_096usize.saturating_sub(bytes.len()).max(8) as u16;
                bytes.extend([99, 0, 0, 0]);
                bytes.extend(length.to_le_bytes());
                bytes.extend([0, 0]);
            }
            self.poke(buffer, &bytes);
            let descriptor = self.descriptor(address, buf_size, tlv_size);
            let at = self.slot_address(self.slot(0));
            self.poke(at, &descriptor);
            let new = self.slot(1);
            self.write(4, HEAD, u64::from(new));
            self.work();
            self.call(&format!("peek {at:#x} 32"));
        }
    }

    /// The device or the ring is reset, and what is left is looked at.
    fn reset(&mut self) {
        let (offset, value) = self.rng.pick(&[
            (CONTROL, 1),
            (CTRL, 1),
            (CTRL, 0xffff_ffff),
            (CONTROL, 2),
            (CTRL, 2),
        ]);
        self.write(4, offset, value);
        for offset in [0x10, SIZE, HEAD, 0x1010, CREDITS, 0x304] {
            self.read(4, offset);
        }
        for offset in [0x18, 0x310, ENABLE, 0x320, BASE] {
            self.read(8, offset);
        }
        self.frames();
        self.open_ports(92);
    }

    /// Memory that is gone, then back.
    fn outside(&mut self) {
        self.call("memory 0");
        self.call("peek 0 0");
        self.call("peek 0 1");
        self.call("work 4102");
        self.new_memory();
    }

    /// A flood of 62 members, which is the longest list there is.
    fn flood(&mut self) {
        self.new_memory();
        self.call("fresh 62 7");
        self.open_ports(100);
        self.write(8, BASE, 64);
        self.write(4, SIZE, 32);
        self.next_buffer = 64 + 32 * 32;
        let tables = self.tables();
        let vlan = vlan(&mut self.rng);
        let ingress = self.rng.range(1, 62) as u16;
        let mut ids: Vec<u32> = (0..=62)
            .filter(|port| *port != ingress)
            .map(|port| group_id(0, vlan, port))
            .collect();
        let mut payloads: Vec<Vec<u8>> = Vec::new();
        for id in &ids {
            payloads.push(group(&mut self.rng, &tables, 7, *id).payload());
        }
        let kind = self.rng.pick(&[3, 4]);
        let flood = group_id(kind, vlan, 0);
        self.rng.shuffle(&mut ids);
        let mut list = group(&mut self.rng, &tables, 7, flood);
        list.set(field::GROUP_COUNT, (ids.len() as u16).to_le_bytes());
        list.set(field::GROUP_IDS, member_list(&ids));
        payloads.push(list.payload());
        let mut way = flow(&mut self.rng, &tables, 3, 1, 10);
        way.set(field::IN_PPORT, u32::from(ingress).to_le_bytes());
        way.set(field::VLAN_ID, [0, 0]);
        way.set(field::NEW_VLAN_ID, vlan.to_be_bytes());
        way.set(field::GOTO_TBL, [20, 0]);
        payloads.push(way.payload());
        let mut bridge = flow(&mut self.rng, &tables, 3, 2, 50);
        bridge.set(field::VLAN_ID, vlan.to_be_bytes());
        bridge.set(field::DST_MAC, [0xff; 6]);
        bridge.set(field::GROUP_ID, flood.to_le_bytes());
        bridge.set(field::GOTO_TBL, [60, 0]);
        payloads.push(bridge.payload());
        self.run(&payloads);
        self.drain();
        let frame = format!("{}020000000009{}", "ff".repeat(6), "0800");
        let ask = |script: &mut Self, list: &str| {
            script.call(&format!("frame {ingress} {frame}{list}"));
        };
        ask(self, "");
        ask(self, " 558");
        ask(self, " 557");
        for _ in 0..4 {
            let port = self.rng.range(1, 62);
            self.call(&format!("link {port} 0"));
        }
        ask(self, "");
        self.open_ports(80);
        ask(self, " 1024");
        let longest = longest_lists(&mut self.rng, vlan);
        self.run(&longest);
        self.frames();
    }

    /// Consumes slots without returning credits until no more are taken.
    fn credit_limit(&mut self) {
        let _ = writeln!(self.out, "# up to the limit of the credits");
        self.call("memory 524288");
        self.call("fresh 3 1");
        self.write(4, SIZE, 16_384);
        let mut waiting = 0;
        for consumed in 0..65_536 {
            if waiting == 0 {
                // All that fits; the last round also leaves one slot over.
                let tail = consumed % 16_384;
                self.write(4, HEAD, (tail + 16_383) % 16_384);
                waiting = 16_383;
            }
            self.call("work 6");
            waiting -= 1;
        }
        self.read(4, CREDITS);
        self.call("work 6");
        self.call("work 0");
        self.write(4, SIZE, 2);
        self.call("work 6");
        self.write(4, HEAD, 1);
        self.call("work 6");
        self.write(8, BASE, 1 << 40);
        self.write(4, HEAD, 1);
        self.call("work 6");
        self.write(4, CREDITS, 65_537);
        self.write(4, CREDITS, 0);
        self.call("work 6");
        self.write(4, CREDITS, 1);
        self.call("work 6");
        self.write(8, BASE, 0);
        self.write(4, HEAD, 1);
        self.call("work 5");
        self.call("work 6");
        self.write(4, HEAD, 0);
        self.call("work 6");
        self.write(4, CREDITS, 65_536);
        self.call("work 6");
        self.read(4, CREDITS);
    }
}
