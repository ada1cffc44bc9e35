//! The functions of the archive (include/rocker.h, crates/capi), and a device as they hold it. A slice is a pointer and a length; no
//! pointer is null, also where the length is 0.

pub type Words = [u64; 20];
pub type Flows = [[u32; 22]; 256];
pub type Heads = [[u32; 8]; 128];
pub type Members = [[u16; 62]; 128];
pub type Order = [u8; 256];

/// The five arrays of a device, as `struct rocker` has them.
#[derive(Clone, PartialEq, Eq)]
#[repr(C)]
pub struct Parts {
    pub registers: Words,
    pub flows: Flows,
    pub heads: Heads,
    pub members: Members,
    pub order: Order,
}

impl Parts {
    pub fn zero() -> Box<Self> {
        Box::new(Parts {
            registers: [0; 20],
            flows: [[0; 22]; 256],
            heads: [[0; 8]; 128],
            members: [[0; 62]; 128],
            order: [0; 256],
        })
    }
}

extern "C" {
    pub fn rocker_size() -> u64;
    pub fn rocker_fresh_parts(
        registers: *mut Words,
        flows: *mut Flows,
        heads: *mut Heads,
        members: *mut Members,
        order: *mut Order,
        ports: u64,
        switch_id: u64,
    ) -> u32;
    pub fn rocker_read_parts(registers: *const Words, offset: u64, width: u64, value: *mut u64) -> u32;
    pub fn rocker_write_parts(registers: *mut Words, offset: u64, width: u64, value: u64, raised: *mut u64, reset: *mut u64) -> u32;
    pub fn rocker_link_parts(registers: *mut Words, port: u64, up: u64) -> u32;
    pub fn rocker_process_parts(
        registers: *mut Words,
        flows: *mut Flows,
        heads: *mut Heads,
        members: *mut Members,
        order: *mut Order,
        memory: *mut u8,
        memory_length: usize,
        buffer: *mut u8,
        buffer_length: usize,
        raised: *mut u64,
        completed: *mut u64,
        bytes: *mut u64,
    ) -> u32;
    pub fn rocker_frame_parts(
        registers: *const Words,
        flows: *const Flows,
        heads: *const Heads,
        members: *const Members,
        order: *const Order,
        port: u64,
        frame: *const u8,
        frame_length: usize,
        list: *mut u16,
        list_length: usize,
        outputs: *mut u64,
    ) -> u32;
    pub fn rocker_header_parts(registers: *const Words, buffer: *mut u8, buffer_length: usize, bytes: *mut u64) -> u32;
}
