//! The plain engine, "an unordered store with a full scan" (crates/plain), and the device's own search, both without the call around them.

use interface::Kept;

type Flows = [[u32; 22]; 256];

/// A frame's MAC, the two words of its address, VLAN, EtherType, and whether the address is there.
pub type Headers = [u64; 6];

/// Whether there is a way out, its VLAN and its group.
pub type Way = [u32; 3];

extern "C" {
    fn plain_add(rows: *mut Flows, count: *mut usize, row: *const [u32; 22]) -> u32;
    fn plain_way(rows: *const Flows, count: usize, port: u32, headers: *const Headers, out: *mut Way);
    fn ordered_way(
        rows: *const Flows,
        count: usize,
        order: *const [u8; 256],
        firsts: *const [usize; 4],
        port: u32,
        headers: *const Headers,
        out: *mut Way,
    );
}

/// The flows of a device in the plain store.
pub struct Plain {
    rows: Flows,
    count: usize,
}

impl Plain {
    pub fn of(device: &Kept) -> Self {
        let mut plain = Plain {
            rows: [[0; 22]; 256],
            count: 0,
        };
        for row in &device.flows[..device.live] {
            let status = unsafe { plain_add(&mut plain.rows, &mut plain.count, row) };
            assert_eq!(status, 0, "the status of an add");
        }
        plain
    }

    pub fn way(&self, port: u32, headers: &Headers) -> Way {
        let mut way = [0; 3];
        unsafe { plain_way(&self.rows, self.count, port, headers, &mut way) };
        way
    }
}

pub fn search(device: &Kept, port: u32, headers: &Headers) -> Way {
    let mut way = [0; 3];
    unsafe { ordered_way(&device.flows, device.live, &device.order, &device.firsts, port, headers, &mut way) };
    way
}
