#![doc = include_str!("../README.md")]
#![deny(missing_docs)]

mod archive;
mod outcome;

use archive::Parts;
pub use outcome::{Output, Outputs, Processed, Refusal, Status, Written};
use std::fmt;
use std::mem::size_of;
use std::sync::Once;

/// The registers by their offsets. An access has 4 bytes or, of the wide ones, 8.
pub mod register {
    /// 4 bytes: reads twice what was written.
    pub const TEST: u64 = 0x0010;
    /// 8 bytes: reads twice what was written.
    pub const TEST64: u64 = 0x0018;
    /// 4 bytes: bit 0 resets the device.
    pub const CONTROL: u64 = 0x0300;
    /// 4 bytes, read only: how many ports there are.
    pub const PORT_PHYS_COUNT: u64 = 0x0304;
    /// 8 bytes, read only: bit p is port p.
    pub const PORT_PHYS_LINK_STATUS: u64 = 0x0310;
    /// 8 bytes: bit p is port p.
    pub const PORT_PHYS_ENABLE: u64 = 0x0318;
    /// 8 bytes, read only.
    pub const SWITCH_ID: u64 = 0x0320;
    /// 8 bytes: where the ring's descriptors stand.
    pub const BASE_ADDR: u64 = 0x1000;
    /// 4 bytes: the ring's slots.
    pub const SIZE: u64 = 0x1008;
    /// 4 bytes: posts the slots up to it.
    pub const HEAD: u64 = 0x100c;
    /// 4 bytes, read only: the slot that is processed next.
    pub const TAIL: u64 = 0x1010;
    /// 4 bytes: bit 0 resets the ring and keeps the tables.
    pub const CTRL: u64 = 0x1014;
    /// 4 bytes: slots that were consumed and not yet returned; a write returns as many.
    pub const CREDITS: u64 = 0x1018;
}

/// The bytes of a device that is saved.
pub const BYTES: usize = 42_912;
/// The numbers that the list of [`Device::frame`] must have room for.
pub const LIST: usize = 558;
/// The longest record of a journal, in bytes: a buffer of that length is never too short for [`Device::process`].
pub const RECORD: usize = 6 + 4096;
/// The bytes of a journal's header.
pub const HEADER: usize = 6;

const _: () = assert!(size_of::<Parts>() == BYTES);

/// A switch. Each call ends with what it gives, or with a [`Refusal`] that has changed nothing: no register and no table, no byte of guest
/// memory and of the buffer, no number of the list.
#[derive(Clone, PartialEq, Eq)]
pub struct Device(Box<Parts>);

impl fmt::Debug for Device {
    fn fmt(&self, f: &mut fmt::Formatter<'_>) -> fmt::Result {
        let [id, ports] = [self.0.registers[0], self.0.registers[5] & 0xffff_ffff];
        write!(f, "Device {{ switch ID {id:#x}, {ports} ports, .. }}")
    }
}

/// Crate and archive have to be of the same device. Whoever has a device has passed here.
fn check_archive() {
    static ONCE: Once = Once::new();
    ONCE.call_once(|| {
        let size = unsafe { archive::rocker_size() };
        assert_eq!(size, BYTES as u64, "libcapi.a is of another device than this crate");
    });
}

// References and slices are Rust's own: none is null, each is aligned, of its length and apart from the others. So each call below is one
// that the contracts of crates/capi, which have no `requires`, speak of.
impl Device {
    /// A new device of 1 to 62 ports: all links down, the tables empty. Another port count is [`Refusal::Port`].
    pub fn fresh(ports: u64, switch_id: u64) -> Result<Self, Refusal> {
        check_archive();
        let mut parts = Parts::zero();
        let p = &mut *parts;
        let answer = unsafe {
            archive::rocker_fresh_parts(
                &mut p.registers,
                &mut p.flows,
                &mut p.heads,
                &mut p.members,
                &mut p.order,
                ports,
                switch_id,
            )
        };
        Refusal::or(answer, || Device(parts))
    }

    /// What a register reads, at an offset and by a width of 4 or 8 bytes.
    pub fn read(&self, offset: u64, width: u64) -> Result<u64, Refusal> {
        let mut value = 0;
        let answer = unsafe { archive::rocker_read_parts(&self.0.registers, offset, width, &mut value) };
        Refusal::or(answer, || value)
    }

    /// A register written. [`Written::reset`] tells that the device was reset: a host that keeps a journal begins a new one.
    pub fn write(&mut self, offset: u64, width: u64, value: u64) -> Result<Written, Refusal> {
        let (mut raised, mut reset) = (0, 0);
        let registers = &mut self.0.registers;
        let answer = unsafe { archive::rocker_write_parts(registers, offset, width, value, &mut raised, &mut reset) };
        Refusal::or(answer, || Written {
            raised: raised == 1,
            reset: reset == 1,
        })
    }

    /// The owner sets a port's link up or down.
    pub fn link(&mut self, port: u64, up: bool) -> Result<(), Refusal> {
        let answer = unsafe { archive::rocker_link_parts(&mut self.0.registers, port, u64::from(up)) };
        Refusal::or(answer, || ())
    }

    /// The slot at TAIL: its command is carried out, two bytes of its descriptor are written to guest memory, whose first byte is guest
    /// address 0, and the journal's record to the start of the buffer ([`RECORD`] bytes are always enough).
    pub fn process<'b>(&mut self, memory: &mut [u8], buffer: &'b mut [u8]) -> Result<Processed<'b>, Refusal> {
        let (mut raised, mut completed, mut bytes) = (0, 0, 0);
        let p = &mut *self.0;
        let answer = unsafe {
            archive::rocker_process_parts(
                &mut p.registers,
                &mut p.flows,
                &mut p.heads,
                &mut p.members,
                &mut p.order,
                memory.as_mut_ptr(),
                memory.len(),
                buffer.as_mut_ptr(),
                buffer.len(),
                &mut raised,
                &mut completed,
                &mut bytes,
            )
        };
        Refusal::or(answer, || Processed {
            raised: raised == 1,
            completed: completed as u16,
            record: &buffer[..bytes as usize],
        })
    }

    /// A frame in at a port: where it goes. Its outputs are written to the start of the list, which has room for [`LIST`] numbers. The
    /// frame is only read: tag, MACs and all else are the host's to change on a copy.
    pub fn frame<'l>(&self, port: u64, frame: &[u8], list: &'l mut [u16]) -> Result<Outputs<'l>, Refusal> {
        let mut outputs = 0;
        let p = &*self.0;
        let answer = unsafe {
            archive::rocker_frame_parts(
                &p.registers,
                &p.flows,
                &p.heads,
                &p.members,
                &p.order,
                port,
                frame.as_ptr(),
                frame.len(),
                list.as_mut_ptr(),
                list.len(),
                &mut outputs,
            )
        };
        Refusal::or(answer, || Outputs::of(&list[..Outputs::NUMBERS * outputs as usize]))
    }

    /// The header of a journal, at the start of the buffer: what a journal begins with, after [`Device::fresh`] and after each
    /// [`Written::reset`].
    pub fn header<'b>(&self, buffer: &'b mut [u8]) -> Result<&'b [u8], Refusal> {
        let mut bytes = 0;
        let (registers, at, length) = (&self.0.registers, buffer.as_mut_ptr(), buffer.len());
        let answer = unsafe { archive::rocker_header_parts(registers, at, length, &mut bytes) };
        Refusal::or(answer, || &buffer[..bytes as usize])
    }

    /// The device's [`BYTES`] bytes, to be saved. They are those that `struct rocker` has on a little-endian machine.
    pub fn to_bytes(&self) -> Vec<u8> {
        let p = &*self.0;
        let mut bytes = Vec::with_capacity(BYTES);
        bytes.extend(p.registers.iter().flat_map(|word| word.to_le_bytes()));
        bytes.extend(p.flows.iter().flatten().flat_map(|word| word.to_le_bytes()));
        bytes.extend(p.heads.iter().flatten().flat_map(|word| word.to_le_bytes()));
        bytes.extend(p.members.iter().flatten().flat_map(|word| word.to_le_bytes()));
        bytes.extend(p.order);
        bytes
    }

    /// The device of saved bytes, none where they are not [`BYTES`]. Any pattern of them is a device, and the calls' promises hold of it.
    pub fn from_bytes(bytes: &[u8]) -> Option<Self> {
        check_archive();
        if bytes.len() != BYTES {
            return None;
        }
        let mut parts = Parts::zero();
        let mut rest = bytes;
        for word in &mut parts.registers {
            *word = u64::from_le_bytes(taken(&mut rest));
        }
        for word in parts.flows.iter_mut().flatten() {
            *word = u32::from_le_bytes(taken(&mut rest));
        }
        for word in parts.heads.iter_mut().flatten() {
            *word = u32::from_le_bytes(taken(&mut rest));
        }
        for word in parts.members.iter_mut().flatten() {
            *word = u16::from_le_bytes(taken(&mut rest));
        }
        parts.order = taken(&mut rest);
        Some(Device(parts))
    }
}

/// The first N bytes of what is left.
fn taken<const N: usize>(rest: &mut &[u8]) -> [u8; N] {
    let (first, others) = rest.split_at(N);
    *rest = others;
    first.try_into().expect("N bytes")
}
