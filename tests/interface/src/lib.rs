//! The proved device through its C interface, by the crate for hosts (bindings/rust), with the calls of the second implementation.

use model::device::{Calls, Worked};
use model::registers::Refusal;

/// A device as a host in Rust holds it.
#[derive(Clone)]
pub struct Rocker(rocker::Device);

/// What a search goes through, for who measures one alone: the flows and how many are live, their order, and where tables 10, 20, 30 and 50
/// begin in it.
pub struct Kept {
    pub flows: [[u32; 22]; 256],
    pub live: usize,
    pub order: [u8; 256],
    pub firsts: [usize; 4],
}

impl Rocker {
    /// Read from the device's bytes: 20 words of 64 bits, then the flows; the order stands last (docs/C-INTERFACE.md, "A device").
    pub fn kept(&self) -> Kept {
        let bytes = self.0.to_bytes();
        let word = |i: usize| u64::from_le_bytes(bytes[8 * i..8 * i + 8].try_into().expect("8 bytes")) as usize;
        let mut flows = [[0; 22]; 256];
        for (to, from) in flows.iter_mut().flatten().zip(bytes[160..].chunks_exact(4)) {
            *to = u32::from_le_bytes(from.try_into().expect("4 bytes"));
        }
        Kept {
            flows,
            live: word(14),
            order: bytes[bytes.len() - 256..].try_into().expect("256 bytes"),
            firsts: [word(16), word(17), word(18), word(19)],
        }
    }
}

fn refused(by: rocker::Refusal) -> Refusal {
    Refusal::of(u64::from(by.number())).expect("an answer of a device call")
}

impl Calls for Rocker {
    fn fresh(ports: u64, switch_id: u64) -> Result<Self, Refusal> {
        rocker::Device::fresh(ports, switch_id).map(Rocker).map_err(refused)
    }

    fn link(&mut self, port: u64, up: bool) -> Result<(), Refusal> {
        self.0.link(port, up).map_err(refused)
    }

    fn read(&self, width: u64, offset: u64) -> Result<u64, Refusal> {
        self.0.read(offset, width).map_err(refused)
    }

    fn write(&mut self, width: u64, offset: u64, value: u64) -> Result<bool, Refusal> {
        self.0.write(offset, width, value).map(|done| done.raised).map_err(refused)
    }

    fn work(&mut self, memory: &mut [u8], room: &mut [u8]) -> Result<Worked, Refusal> {
        let done = self.0.process(memory, room).map_err(refused)?;
        Ok(Worked {
            raised: done.raised,
            length: done.record.len(),
        })
    }

    fn frame(&self, port: u64, frame: &[u8], list: &mut [u16]) -> Result<usize, Refusal> {
        self.0.frame(port, frame, list).map(|outputs| outputs.len()).map_err(refused)
    }

    fn header(&self, room: &mut [u8]) -> Result<usize, Refusal> {
        self.0.header(room).map(<[u8]>::len).map_err(refused)
    }
}
