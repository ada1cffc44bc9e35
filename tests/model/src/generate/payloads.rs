//! Scripts of payloads alone.

use super::commands::*;
use super::Rng;
use crate::console::{hex, Execute};
use crate::tables::Tables;

pub fn payloads(seed: u64, count: u64) -> String {
    let mut maker = PayloadScript {
        rng: Rng::new(seed ^ 0x7061_796c_6f61_6473).skipping(seed.is_multiple_of(4)),
        execute: Execute::default(),
        out: format!("# payloads, seed {seed}\n"),
        left: count,
    };
    maker.start();
    while maker.left > 0 {
        let tables = maker.execute.tables();
        match maker.rng.range(0, 999) {
            0..=4 => maker.start(),
            5..=6 if maker.left >= 300 => {
                let payloads = flow_fillers(&mut maker.rng, &tables);
                maker.fill(&payloads);
            }
            7..=8 if maker.left >= 150 => {
                let payloads = group_fillers(&mut maker.rng, &tables);
                maker.fill(&payloads);
            }
            9..=19 => {
                let vlan = vlan(&mut maker.rng);
                for payload in longest_lists(&mut maker.rng, vlan) {
                    maker.payload(&payload);
                }
            }
            20..=24 => {
                // Every variation of one form, so that none is left to luck.
                let forms = forms(&mut maker.rng, &tables);
                let form = maker.rng.pick(&forms);
                let mut all = variations(&mut maker.rng, &form, tables.ports);
                maker.rng.shuffle(&mut all);
                for payload in all {
                    maker.payload(&payload);
                }
            }
            _ => maker.any(75),
        }
    }
    maker.out
}

struct PayloadScript {
    rng: Rng,
    execute: Execute,
    out: String,
    left: u64,
}

impl Execute {
    fn tables(&self) -> Tables {
        self.tables.clone().unwrap_or_else(|| Tables::empty(1))
    }
}

impl PayloadScript {
    fn line(&mut self, line: String) {
        let _ = self.execute.line(line.as_bytes());
        self.out.push_str(&line);
        self.out.push('\n');
    }

    fn start(&mut self) {
        let ports = some_ports(&mut self.rng);
        self.line(format!("ports {ports}"));
    }

    fn any(&mut self, valid: u64) {
        let tables = self.execute.tables();
        let payload = any_payload(&mut self.rng, &tables, valid);
        self.payload(&payload);
    }

    /// Fills a table up, stays there for a while and starts anew.
    fn fill(&mut self, payloads: &[Vec<u8>]) {
        for payload in payloads {
            self.payload(payload);
        }
        for _ in 0..20 {
            self.any(90);
        }
        self.start();
    }

    fn payload(&mut self, payload: &[u8]) {
        if self.left > 0 {
            self.left -= 1;
            self.line(format!("payload {}", hex(payload)));
        }
    }
}
