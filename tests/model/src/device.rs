//! The device: its calls, each with its whole outcome.

use crate::frame::{copies, vlan_of, LIST, NUMBERS};
use crate::journal;
use crate::misread::{cut_if, misread, Label as L};
use crate::registers::{Refusal, Registers};
use crate::tables::{Status, Tables};

#[derive(Clone, Debug, PartialEq, Eq)]
pub struct Device {
    pub registers: Registers,
    pub tables: Tables,
}

/// What a done work call tells.
#[derive(Clone, Copy, Debug, PartialEq, Eq)]
pub struct Worked {
    /// Vector 0 was raised.
    pub raised: bool,
    /// The length of the line at the start of the room.
    pub length: usize,
}

const DESCRIPTOR: u128 = 32;
const CREDIT_LIMIT: u32 = 65_536;

/// The place of a range in memory, if its true end is inside.
pub fn inside(memory: &[u8], at: u128, length: u128) -> Option<std::ops::Range<usize>> {
    let end = at + length;
    if end > memory.len() as u128 {
        return None;
    }
    Some(at as usize..end as usize)
}

/// What a descriptor says of its payload.
struct Lent {
    address: u64,
    buf_size: u16,
    tlv_size: u16,
}

fn lent(descriptor: &[u8]) -> Lent {
    let short = |at: usize| u16::from_le_bytes([descriptor[at], descriptor[at + 1]]);
    let mut address = [0; 8];
    address.copy_from_slice(&descriptor[..8]);
    if misread(L::BufAddrAfterCookie) {
        address.copy_from_slice(&descriptor[8..16]);
    }
    let mut address = u64::from_le_bytes(address);
    let (mut buf_size, mut tlv_size) = (short(16), short(18));
    match () {
        _ if misread(L::BufferBy32Bits) => address &= 0xffff_ffff,
        _ if misread(L::SizesBigEndian) => {
            (buf_size, tlv_size) = (buf_size.swap_bytes(), tlv_size.swap_bytes())
        }
        _ if misread(L::SizesSwapped) => (buf_size, tlv_size) = (tlv_size, buf_size),
        _ if misread(L::TlvSizeCut) => tlv_size = tlv_size.min(buf_size),
        _ => {}
    }
    Lent {
        address,
        buf_size,
        tlv_size,
    }
}

/// The payload that a descriptor lends, or the fault that leaves none.
fn payload(memory: &[u8], descriptor: &[u8]) -> Result<Vec<u8>, Status> {
    let Lent {
        address,
        buf_size,
        tlv_size,
    } = lent(descriptor);
    let long = usize::from(tlv_size) > journal::LONGEST;
    match () {
        _ if misread(L::EinvalBeforeEnxio) && tlv_size > buf_size => return Err(Status::Einval),
        _ if misread(L::EmsgsizeBeforeEnxio) && long => return Err(Status::Emsgsize),
        _ if misread(L::BufAddrOf16) && address % 16 != 0 => return Err(Status::Enxio),
        _ => {}
    }
    let anywhere = misread(L::BufAddrAnywhere) || misread(L::BufAddrOf4) && address % 4 == 0;
    if !address.is_multiple_of(8) && !anywhere {
        return Err(Status::Enxio);
    }
    let needed = if misread(L::EnxioByTlvSize) {
        tlv_size
    } else {
        buf_size
    };
    match inside(memory, u128::from(address), u128::from(needed)) {
        Some(place) if misread(L::BufferEndsBefore) && place.end == memory.len() => {
            return Err(Status::Enxio)
        }
        None if misread(L::BufferEmptyAnywhere) && buf_size == 0 && tlv_size == 0 => {
            return Ok(Vec::new())
        }
        None if misread(L::BufferWraps)
            && address.wrapping_add(u64::from(needed)) <= memory.len() as u64 =>
        {
            return Ok(vec![0; usize::from(tlv_size)])
        }
        None => return Err(Status::Enxio),
        Some(_) => {}
    }
    match () {
        _ if misread(L::EmsgsizeBeforeEinval) && long => return Err(Status::Emsgsize),
        _ if misread(L::TlvSizeEqualRefused) && tlv_size == buf_size => return Err(Status::Einval),
        _ if misread(L::BufSizeCounted) && buf_size.count_ones() != 1 => {
            return Err(Status::Einval)
        }
        _ => {}
    }
    if tlv_size > buf_size {
        return Err(Status::Einval);
    }
    match tlv_size {
        4_096 if misread(L::TlvSize4096Refused) => return Err(Status::Emsgsize),
        4_097 if misread(L::TlvSize4097Taken) => {}
        _ if misread(L::EmsgsizeByBufSize) && buf_size > 4_096 => return Err(Status::Emsgsize),
        _ if long => return Err(Status::Emsgsize),
        _ => {}
    }
    let length = if misread(L::PayloadByBufSize) {
        buf_size.min(4_096)
    } else {
        tlv_size
    };
    Ok(memory[address as usize..][..usize::from(length)].to_vec())
}

/// What is recorded of a fault that leaves no payload: nothing, but for three misreadings.
fn recorded(memory: &[u8], descriptor: &[u8], fault: Status) -> Vec<u8> {
    let Lent {
        address,
        buf_size,
        tlv_size,
    } = lent(descriptor);
    let label = match fault {
        Status::Enxio => L::EnxioRecords,
        Status::Einval => L::EinvalRecords,
        _ => L::EmsgsizeRecords,
    };
    let length = tlv_size.min(buf_size).min(4_096);
    match inside(memory, u128::from(address), u128::from(length)) {
        Some(place) if misread(label) => memory[place].to_vec(),
        _ => Vec::new(),
    }
}

/// The calls of a device, whichever implementation carries them out.
pub trait Calls: Sized {
    fn fresh(ports: u64, switch_id: u64) -> Result<Self, Refusal>;
    fn link(&mut self, port: u64, up: bool) -> Result<(), Refusal>;
    fn read(&self, width: u64, offset: u64) -> Result<u64, Refusal>;
    fn write(&mut self, width: u64, offset: u64, value: u64) -> Result<bool, Refusal>;
    fn work(&mut self, memory: &mut [u8], room: &mut [u8]) -> Result<Worked, Refusal>;
    fn frame(&self, port: u64, frame: &[u8], list: &mut [u16]) -> Result<usize, Refusal>;
    fn header(&self, room: &mut [u8]) -> Result<usize, Refusal>;
}

impl Calls for Device {
    fn fresh(ports: u64, switch_id: u64) -> Result<Self, Refusal> {
        Device::fresh(ports, switch_id)
    }

    fn link(&mut self, port: u64, up: bool) -> Result<(), Refusal> {
        Device::link(self, port, up)
    }

    fn read(&self, width: u64, offset: u64) -> Result<u64, Refusal> {
        Device::read(self, width, offset)
    }

    fn write(&mut self, width: u64, offset: u64, value: u64) -> Result<bool, Refusal> {
        Device::write(self, width, offset, value)
    }

    fn work(&mut self, memory: &mut [u8], room: &mut [u8]) -> Result<Worked, Refusal> {
        Device::work(self, memory, room)
    }

    fn frame(&self, port: u64, frame: &[u8], list: &mut [u16]) -> Result<usize, Refusal> {
        Device::frame(self, port, frame, list)
    }

    fn header(&self, room: &mut [u8]) -> Result<usize, Refusal> {
        Device::header(self, room)
    }
}

impl Device {
    pub fn fresh(ports: u64, switch_id: u64) -> Result<Self, Refusal> {
        let ports = cut_if(L::FreshPortsBy32Bits, ports);
        match ports {
            0 if misread(L::FreshPorts0) => {}
            1 if misread(L::FreshPorts1Refused) => return Err(Refusal::Port),
            62 if misread(L::FreshPorts62Refused) => return Err(Refusal::Port),
            63 if misread(L::FreshPorts63) => {}
            1..=62 => {}
            _ => return Err(Refusal::Port),
        }
        let ports = ports as u32;
        let switch_id = cut_if(L::SwitchIdBy32Bits, switch_id);
        Ok(Device {
            registers: Registers::fresh(ports, switch_id),
            tables: Tables::empty(ports),
        })
    }

    /// The port in the width that the tables use; others are refused.
    fn port(&self, port: u64) -> Result<u32, Refusal> {
        let ports = self.registers.ports;
        match u32::try_from(cut_if(L::PortBy32Bits, port)) {
            Ok(0) if misread(L::Port0Taken) => Ok(0),
            Ok(1) if misread(L::Port1Refused) => Err(Refusal::Port),
            Ok(port) if misread(L::PortCountRefused) && port == ports => Err(Refusal::Port),
            Ok(port) if misread(L::PortAboveTaken) && port == ports + 1 => Ok(port),
            Ok(port) if (1..=ports).contains(&port) => Ok(port),
            _ => Err(Refusal::Port),
        }
    }

    pub fn link(&mut self, port: u64, up: bool) -> Result<(), Refusal> {
        let bit = 1u64 << self.port(port)?;
        if up {
            if misread(L::LinkOthersDown) {
                self.registers.links = 0;
            }
            self.registers.links |= bit;
        } else if !misread(L::LinkNeverDown) {
            self.registers.links &= !bit;
        }
        Ok(())
    }

    pub fn read(&self, width: u64, offset: u64) -> Result<u64, Refusal> {
        self.registers.read(width, offset)
    }

    /// Tells whether vector 0 was raised.
    pub fn write(&mut self, width: u64, offset: u64, value: u64) -> Result<bool, Refusal> {
        let done = self.registers.write(width, offset, value)?;
        if done.reset {
            let old = std::mem::replace(&mut self.tables, Tables::empty(self.registers.ports));
            self.tables.order.misreset(old.order);
            match () {
                _ if misread(L::ResetKeepsFlows) => self.tables.flows = old.flows,
                _ if misread(L::ResetKeepsGroups) => self.tables.groups = old.groups,
                _ => {}
            }
        }
        Ok(done.raised)
    }

    /// Consumes one slot. All refusals come before the first change.
    pub fn work(&mut self, memory: &mut [u8], room: &mut [u8]) -> Result<Worked, Refusal> {
        let ring = &self.registers.ring;
        let mut slot = ring.tail;
        let mut at = u128::from(ring.base.value) + DESCRIPTOR * u128::from(ring.tail);
        match () {
            _ if misread(L::DescriptorBy32Bits) => at = u128::from(at as u32),
            _ if misread(L::DescriptorsOf16) => at -= 16 * u128::from(ring.tail),
            _ if misread(L::DescriptorAtHead) && ring.size > 0 => {
                slot = ring.head.wrapping_sub(1) % ring.size;
                at = u128::from(ring.base.value) + DESCRIPTOR * u128::from(slot);
            }
            _ => {}
        }
        let full = match ring.credits {
            65_535 if misread(L::Credits65535Full) => true,
            65_536 if misread(L::Credits65536Taken) => false,
            credits => credits == CREDIT_LIMIT,
        };
        let mut place = inside(memory, at, DESCRIPTOR);
        if misread(L::DescriptorEndsBefore) && at + DESCRIPTOR == memory.len() as u128 {
            place = None;
        }
        match () {
            _ if misread(L::CreditsBeforeIdle) && full => return Err(Refusal::Credits),
            _ if misread(L::DescriptorBeforeIdle) && place.is_none() => {
                return Err(Refusal::Descriptor)
            }
            _ if misread(L::RoomBeforeIdle) && room.len() < 6 => return Err(Refusal::Room),
            _ => {}
        }
        if ring.head == ring.tail {
            return Err(Refusal::Idle);
        }
        match () {
            _ if misread(L::DescriptorBeforeCredits) && place.is_none() => {
                return Err(Refusal::Descriptor)
            }
            _ if misread(L::RoomBeforeCredits) && room.len() < 6 => return Err(Refusal::Room),
            _ => {}
        }
        if full {
            return Err(Refusal::Credits);
        }
        if misread(L::RoomBeforeDescriptor) && room.len() < 6 {
            return Err(Refusal::Room);
        }
        let wraps = (at + DESCRIPTOR) as u64 <= memory.len() as u64;
        let starts = at < memory.len() as u128;
        if place.is_none()
            && (misread(L::DescriptorStartsInside) && starts
                || misread(L::DescriptorWraps) && wraps)
        {
            // Whatever is done with the bytes that are not there.
            return Ok(Worked {
                raised: false,
                length: 0,
            });
        }
        let place = place.ok_or(Refusal::Descriptor)?;
        if misread(L::Bit15Idle) && memory[place.end - 1] & 0x80 != 0 {
            return Err(Refusal::Idle);
        }
        let lent = payload(memory, &memory[place.clone()]);
        // The payload is taken before the stamp, which may fall into it.
        let mut shown = match &lent {
            Ok(payload) => payload.clone(),
            Err(fault) => recorded(memory, &memory[place.clone()], *fault),
        };
        let length = journal::LINE + shown.len();
        let needed = match () {
            _ if misread(L::RoomOneMore) => length + 1,
            _ if misread(L::RoomPayloadOnly)
                && room.len() >= shown.len()
                && room.len() < length =>
            {
                return Ok(Worked {
                    raised: false,
                    length: room.len(),
                })
            }
            _ => length,
        };
        if room.len() < needed {
            if misread(L::RefusedRoomStamps) {
                memory[place.end - 1] |= 0x80;
            }
            if misread(L::RefusedRoomExecutes) {
                self.tables.obey(&shown);
            }
            if misread(L::RefusedRoomConsumes) {
                self.registers.ring.tail =
                    (self.registers.ring.tail + 1) % self.registers.ring.size;
            }
            return Err(Refusal::Room);
        }
        let stamped = |memory: &[u8], stamp: u16| {
            let mut after = memory.to_vec();
            after[place.end - 2..place.end].copy_from_slice(&stamp.to_le_bytes());
            payload(&after, &memory[place.clone()])
        };
        let status = match &lent {
            Ok(_) if misread(L::ExecuteAfterStamp) => {
                shown = stamped(memory, 0x8000).unwrap_or_default();
                self.tables.obey(&shown)
            }
            Ok(payload) => self.tables.obey(payload),
            Err(status) => *status,
        };
        if misread(L::TrailAfterStamp) && lent.is_ok() {
            shown = stamped(memory, status.stamp()).unwrap_or_default();
        }
        if misread(L::LineEmptyUnlessOk) && status != Status::Ok {
            shown.clear();
        }
        let length = journal::LINE + shown.len();
        if misread(L::LineSlotNext) {
            slot = (slot + 1) % ring.size;
        }
        room[..length].copy_from_slice(&journal::line(status.stamp(), slot as u16, &shown));
        let stamp = status.stamp().to_le_bytes();
        let end = place.end;
        match () {
            _ if misread(L::StampWithoutBit15) => {
                memory[end - 2..end].copy_from_slice(&status.code().to_le_bytes())
            }
            _ if misread(L::StampKeepsBits) => {
                memory[end - 2] |= stamp[0];
                memory[end - 1] |= stamp[1];
            }
            _ if misread(L::StampAt28) => memory[end - 4..end - 2].copy_from_slice(&stamp),
            _ if misread(L::StampBigEndian) => {
                memory[end - 2..end].copy_from_slice(&[stamp[1], stamp[0]])
            }
            _ if misread(L::StampOnlyOk) && status != Status::Ok => {}
            _ => memory[end - 2..end].copy_from_slice(&stamp),
        }
        if misread(L::StampClearsReserved) {
            memory[end - 12..end - 2].fill(0);
        }
        let ring = &mut self.registers.ring;
        let raised = match () {
            _ if misread(L::WorkRaisesAlways) => true,
            _ if misread(L::WorkRaisesNever) => false,
            _ if misread(L::WorkRaisesOnlyOk) => ring.credits == 0 && status == Status::Ok,
            _ => ring.credits == 0,
        };
        ring.tail = match () {
            _ if misread(L::TailWithoutModulo) => ring.tail + 1,
            _ if misread(L::TailToHead) => ring.head,
            // Without a SIZE no slot is posted, unless by a misreading.
            _ if ring.size == 0 => 0,
            _ => (ring.tail + 1) % ring.size,
        };
        if !misread(L::CreditsOnlyOk) || status == Status::Ok {
            ring.credits += 1;
        }
        Ok(Worked { raised, length })
    }

    /// Writes the copies into the list and tells how many there are.
    pub fn frame(&self, port: u64, frame: &[u8], list: &mut [u16]) -> Result<usize, Refusal> {
        let short = match list.len() {
            186..LIST if misread(L::ListOf186Taken) => false,
            557 if misread(L::ListOf557Taken) => false,
            558 if misread(L::ListOf558Refused) => true,
            _ if misread(L::ListByCopies) => false,
            length => length < LIST,
        };
        match () {
            _ if misread(L::FrameBeforePort) && vlan_of(frame).is_none() => {
                return Err(Refusal::Frame)
            }
            _ if misread(L::ListBeforePort) && short => return Err(Refusal::List),
            _ => {}
        }
        let port = self.port(port)?;
        if misread(L::ListBeforeFrame) && short {
            return Err(Refusal::List);
        }
        if vlan_of(frame).is_none() {
            return Err(Refusal::Frame);
        }
        if short {
            return Err(Refusal::List);
        }
        let copies = copies(&self.registers, &self.tables, port, frame);
        if list.len() < NUMBERS * copies.len() {
            // Only where a misreading takes too short a list.
            return Err(Refusal::List);
        }
        for (place, copy) in list.chunks_exact_mut(NUMBERS).zip(&copies) {
            place.copy_from_slice(&copy.numbers());
        }
        Ok(copies.len())
    }

    /// Writes the trail's header and tells its length.
    pub fn header(&self, room: &mut [u8]) -> Result<usize, Refusal> {
        let header = journal::header(self.registers.ports as u8);
        if misread(L::HeaderRoomOneMore) && room.len() == header.len() {
            return Err(Refusal::Room);
        }
        let place = room.get_mut(..header.len()).ok_or(Refusal::Room)?;
        place.copy_from_slice(&header);
        Ok(header.len())
    }
}
