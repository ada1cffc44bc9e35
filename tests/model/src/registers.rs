//! The register space: which accesses are allowed, what they show and do.

use crate::misread::{cut_if, misread, Label as L};
use std::ops::RangeInclusive;

/// Why a call of the device was refused; the number is the answer.
#[derive(Clone, Copy, Debug, PartialEq, Eq)]
pub enum Refusal {
    Access = 1,
    Value = 2,
    Idle = 3,
    Credits = 4,
    Descriptor = 5,
    Room = 6,
    Port = 7,
    Frame = 8,
    List = 9,
}

impl Refusal {
    /// The refusal of an answer; `None` for 0, which is done, and for numbers that no call of the device answers.
    pub fn of(answer: u64) -> Option<Self> {
        use Refusal::*;
        let all = [
            Access, Value, Idle, Credits, Descriptor, Room, Port, Frame, List,
        ];
        all.into_iter().find(|refusal| refusal.number() == answer)
    }

    pub fn number(self) -> u64 {
        self as u64
    }
}

/// The end of the register space.
const SPACE: u128 = 0x2000;

/// What each four bytes of the first 16 show.
const BOGUS: u32 = 0xDEAD_BABE;

/// The registers of 4 bytes.
#[derive(Clone, Copy, Debug, PartialEq, Eq)]
enum Narrow {
    Test,
    Control,
    PortCount,
    Size,
    Head,
    Tail,
    Ctrl,
    Credits,
}

/// The registers of 8 bytes.
#[derive(Clone, Copy, Debug, PartialEq, Eq)]
enum Wide {
    Test64,
    LinkStatus,
    Enable,
    SwitchId,
    BaseAddr,
}

/// What stands at four bytes of the register space.
#[derive(Clone, Copy, Debug, PartialEq, Eq)]
enum Word {
    Bogus,
    Narrow(Narrow),
    Lower(Wide),
    Upper(Wide),
    Reserved,
}

fn word(offset: u64) -> Word {
    match misplaced(offset) {
        0x0008..=0x000f if misread(L::BogusEightBytes) => Word::Reserved,
        0x0000..=0x000f => Word::Bogus,
        0x0010 => Word::Narrow(Narrow::Test),
        0x0018 => Word::Lower(Wide::Test64),
        0x001c => Word::Upper(Wide::Test64),
        0x0300 => Word::Narrow(Narrow::Control),
        0x0304 => Word::Narrow(Narrow::PortCount),
        0x0310 => Word::Lower(Wide::LinkStatus),
        0x0314 => Word::Upper(Wide::LinkStatus),
        0x0318 => Word::Lower(Wide::Enable),
        0x031c => Word::Upper(Wide::Enable),
        0x0320 => Word::Lower(Wide::SwitchId),
        0x0324 => Word::Upper(Wide::SwitchId),
        0x1000 => Word::Lower(Wide::BaseAddr),
        0x1004 => Word::Upper(Wide::BaseAddr),
        0x1008 => Word::Narrow(Narrow::Size),
        0x100c => Word::Narrow(Narrow::Head),
        0x1010 => Word::Narrow(Narrow::Tail),
        0x1014 => Word::Narrow(Narrow::Ctrl),
        0x1018 => Word::Narrow(Narrow::Credits),
        _ => Word::Reserved,
    }
}

/// What misreadings of the list of places take an offset for.
fn misplaced(offset: u64) -> u64 {
    match offset {
        0x10 | 0x14 if misread(L::TestAt14) => offset ^ 4,
        0x18 | 0x1c | 0x20 | 0x24 if misread(L::Test64At20) => offset ^ 0x38,
        0x300 | 0x304 if misread(L::ControlCountSwapped) => offset ^ 4,
        0x310..=0x31f if misread(L::LinkEnableSwapped) => offset ^ 8,
        0x320..=0x32f if misread(L::SwitchIdAt328) => offset ^ 8,
        0x1008 | 0x100c if misread(L::SizeHeadSwapped) => offset ^ 4,
        0x100c | 0x1010 if misread(L::HeadTailSwapped) => offset ^ 0x1c,
        0x1014 | 0x1018 if misread(L::CtrlCreditsSwapped) => offset ^ 0xc,
        0x1000..=0x103f if misread(L::RingAt1020) => offset ^ 0x20,
        _ => offset,
    }
}

/// The shape test. An 8-byte access is refused when either of its halves is a
/// 4-byte register; over reserved places alone it is allowed.
fn allowed(width: u64, offset: u64) -> bool {
    let narrow = |offset| matches!(word(offset), Word::Narrow(_));
    match (width, offset) {
        (2, _) if misread(L::Width2Taken) => return offset % 2 == 0 && offset < 0x2000,
        (4, _) if misread(L::FourBytesAt2) && offset % 4 == 2 => return offset < 0x2000,
        (8, _) if misread(L::EightBytesAt4) && offset % 8 == 4 => return offset < 0x1ffc,
        (8, 0x10) if misread(L::EightBytesOverTest) => return true,
        (8, 0x1fff..) | (4, 0x1ffc..) if misread(L::SpaceEndsAt1ffb) => return false,
        (4 | 8, 0x2000) if misread(L::SpaceGoesOn) => return true,
        (8, 0 | 8) if misread(L::EightBytesBogus) => return false,
        (8, 0x10 | 0x300 | 0x1008 | 0x1010 | 0x1018) if misread(L::EightBytesOverFour) => {
            return true
        }
        (8, _) if misread(L::EightBytesReserved) && word(offset) == Word::Reserved => return false,
        (4 | 8, _) if misread(L::ReservedRefused) && word(offset) == Word::Reserved => {
            return false
        }
        _ => {}
    }
    (width == 4 || width == 8)
        && offset.is_multiple_of(width)
        && u128::from(offset) + u128::from(width) <= SPACE
        && (width == 4 || !(narrow(offset) || narrow(offset + 4)))
}

/// The shape as it was handed in; two misreadings cut it.
fn shape(width: u64, offset: u64) -> (u64, u64) {
    (
        cut_if(L::WidthBy32Bits, width),
        cut_if(L::OffsetBy32Bits, offset),
    )
}

/// A writable 64-bit register with the hold that belongs to it alone.
#[derive(Clone, Copy, Debug, Default, PartialEq, Eq)]
pub struct Held {
    pub value: u64,
    pub hold: u32,
}

/// The command ring's registers.
#[derive(Clone, Copy, Debug, Default, PartialEq, Eq)]
pub struct Ring {
    pub base: Held,
    pub size: u32,
    pub head: u32,
    pub tail: u32,
    pub credits: u32,
}

impl Ring {
    /// (to − from) modulo SIZE, for places in the ring.
    fn distance(&self, from: u32, to: u32) -> u32 {
        // SIZE divides 2^32.
        to.wrapping_sub(from) % self.size
    }

    pub fn outstanding(&self) -> u32 {
        if self.size == 0 {
            0
        } else {
            self.distance(self.tail, self.head)
        }
    }

    /// Without a SIZE no value is below it, so every HEAD is refused.
    fn takes_head(&self, new: u32) -> bool {
        if self.size > 0 && new <= self.size {
            let filled = self.outstanding() + self.distance(self.head, new);
            match new {
                _ if misread(L::HeadOnlyBelowSize) => return new < self.size,
                _ if misread(L::HeadFillsRing) => return new < self.size && filled <= self.size,
                _ if misread(L::HeadLeavesTwo) => return new < self.size && filled + 1 < self.size,
                _ if misread(L::HeadAtSize) && new == self.size => return true,
                _ if misread(L::HeadNeverBack) && new < self.head => return false,
                _ if misread(L::HeadSameRefused) && new == self.head => return false,
                _ if misread(L::HeadCounted) && new.count_ones() != 1 => return false,
                _ => {}
            }
        } else if misread(L::HeadWithoutSize) && new == 0 {
            return true;
        }
        new < self.size && self.outstanding() + self.distance(self.head, new) < self.size
    }

    /// A SIZE that is not allowed gets answer 2, and nothing moves.
    fn refused_size(&mut self, value: u32) -> Result<Written, Refusal> {
        match () {
            _ if misread(L::RefusedSizeMovesHead) => (self.head, self.tail) = (0, 0),
            _ if misread(L::RefusedSizeWritten) => self.size = value,
            _ if misread(L::RefusedSizeDropsHold) => self.base.hold = 0,
            _ if misread(L::RefusedSizeDropsCredits) => self.credits = 0,
            _ if misread(L::RefusedSizeDone) => return Ok(Written::default()),
            _ if misread(L::SizeRefusedBy1) => return Err(Refusal::Access),
            _ if misread(L::SizeCountRefusedBy1) && value.count_ones() != 1 => {
                return Err(Refusal::Access)
            }
            _ => {}
        }
        Err(Refusal::Value)
    }
}

/// What an accepted write did beyond the registers themselves.
#[derive(Clone, Copy, Debug, Default, PartialEq, Eq)]
pub struct Written {
    /// Vector 0 was raised.
    pub raised: bool,
    /// The device was reset, so its tables have to be emptied.
    pub reset: bool,
}

#[derive(Clone, Debug, PartialEq, Eq)]
pub struct Registers {
    pub ports: u32,
    pub switch_id: u64,
    pub links: u64,
    pub enable: Held,
    pub ring: Ring,
    test: u32,
    test64: Held,
}

impl Registers {
    pub fn fresh(ports: u32, switch_id: u64) -> Self {
        let mut fresh = Registers {
            ports,
            switch_id,
            links: 0,
            enable: Held::default(),
            ring: Ring::default(),
            test: 0,
            test64: Held::default(),
        };
        if misread(L::FreshLinksUp) {
            fresh.links = fresh.port_bits();
        }
        if misread(L::FreshEnabled) {
            fresh.enable.value = fresh.port_bits();
        }
        fresh
    }

    /// Bits 1 to the port count.
    fn port_bits(&self) -> u64 {
        (1..=self.ports).map(|port| 1u64 << port).sum()
    }

    /// What misreadings bring over a device reset.
    fn misreset(&mut self, old: &Registers) {
        match () {
            _ if misread(L::ResetDropsPorts) => self.ports = 1,
            _ if misread(L::ResetDropsLinks) => self.links = 0,
            _ if misread(L::ResetDropsSwitchId) => self.switch_id = 0,
            _ if misread(L::ResetKeepsEnable) => self.enable.value = old.enable.value,
            _ if misread(L::ResetKeepsTest) => self.test = old.test,
            _ if misread(L::ResetKeepsTest64) => self.test64.value = old.test64.value,
            _ if misread(L::ResetKeepsHolds) => {
                self.enable.hold = old.enable.hold;
                self.test64.hold = old.test64.hold;
                self.ring.base.hold = old.ring.base.hold;
            }
            _ if misread(L::ResetKeepsBase) => self.ring.base.value = old.ring.base.value,
            _ if misread(L::ResetKeepsSize) => self.ring.size = old.ring.size,
            _ if misread(L::ResetKeepsHead) => {
                (self.ring.head, self.ring.tail) = (old.ring.head, old.ring.tail)
            }
            _ if misread(L::ResetKeepsCredits) => self.ring.credits = old.ring.credits,
            _ => {}
        }
    }

    /// A port that is both up and enabled.
    pub fn carries(&self, port: u32) -> bool {
        (1..=self.ports).contains(&port) && self.links & self.enable.value & (1 << port) != 0
    }

    fn show_wide(&self, register: Wide) -> u64 {
        let test64 = self.test64.value;
        match register {
            Wide::Test64 if misread(L::Test64Once) => test64,
            Wide::Test64 if misread(L::Test64ByHalves) => test64.wrapping_add(test64) & !(1 << 32),
            Wide::Test64 => test64.wrapping_add(test64),
            Wide::LinkStatus if misread(L::LinkStatusFromBit0) => self.links >> 1,
            Wide::LinkStatus if misread(L::LinkStatusEnabled) => self.links & self.enable.value,
            Wide::LinkStatus => self.links,
            Wide::Enable if misread(L::EnableFromBit0) => self.enable.value >> 1,
            Wide::Enable => self.enable.value,
            Wide::SwitchId => self.switch_id,
            Wide::BaseAddr => self.ring.base.value,
        }
    }

    fn show(&self, word: Word) -> u32 {
        match word {
            Word::Bogus if misread(L::BogusBeef) => 0xDEAD_BEEF,
            Word::Bogus => BOGUS,
            Word::Narrow(Narrow::Test) if misread(L::TestOnce) => self.test,
            Word::Narrow(Narrow::Test) if misread(L::TestSaturates) => {
                self.test.saturating_add(self.test)
            }
            Word::Narrow(Narrow::Test) => self.test.wrapping_add(self.test),
            Word::Narrow(Narrow::Control) if misread(L::ControlReads1) => 1,
            Word::Narrow(Narrow::Ctrl) if misread(L::CtrlReads1) => 1,
            Word::Narrow(Narrow::Control | Narrow::Ctrl) => 0,
            Word::Narrow(Narrow::PortCount) => self.ports,
            Word::Narrow(Narrow::Size) => self.ring.size,
            Word::Narrow(Narrow::Head) => self.ring.head,
            Word::Narrow(Narrow::Tail) => self.ring.tail,
            Word::Narrow(Narrow::Credits) => self.ring.credits,
            Word::Lower(register) => self.show_wide(register) as u32,
            Word::Upper(register) => (self.show_wide(register) >> 32) as u32,
            Word::Reserved => 0,
        }
    }

    pub fn read(&self, width: u64, offset: u64) -> Result<u64, Refusal> {
        let (width, offset) = shape(width, offset);
        if !allowed(width, offset) {
            return Err(Refusal::Access);
        }
        let lower = u64::from(self.show(word(offset)));
        match (width, offset) {
            (4, 0x0010) if misread(L::TestCarries) => return Ok(2 * u64::from(self.test)),
            (4, 0x001c) if misread(L::Test64HalfDoubled) => {
                return Ok((self.test64.value >> 32 << 1) & 0xffff_ffff)
            }
            (4, 0x0018) if misread(L::HoldShown) => return Ok(u64::from(self.test64.hold)),
            (8, 0x0000) if misread(L::BogusOnce) => return Ok(lower),
            _ => {}
        }
        if width == 4 {
            return Ok(lower);
        }
        Ok(lower | u64::from(self.show(word(offset + 4))) << 32)
    }

    pub fn write(&mut self, width: u64, offset: u64, value: u64) -> Result<Written, Refusal> {
        let (width, offset) = shape(width, offset);
        let half = value as u32;
        if misread(L::ValueBeforeAccess) && offset == 0x1008 && !is_size(half) {
            return Err(Refusal::Value);
        }
        if !allowed(width, offset) {
            return Err(Refusal::Access);
        }
        match word(offset) {
            _ if misread(L::Over32BitsRefused) && width == 4 && value >> 32 != 0 => {
                return Err(Refusal::Value)
            }
            Word::Bogus if misread(L::BogusWritten) => self.test = half,
            Word::Narrow(Narrow::PortCount | Narrow::Tail)
            | Word::Lower(Wide::LinkStatus | Wide::SwitchId)
            | Word::Upper(Wide::LinkStatus | Wide::SwitchId)
                if misread(L::ReadOnlyRefused) =>
            {
                return Err(Refusal::Access)
            }
            Word::Narrow(Narrow::PortCount) if misread(L::PortCountWritten) => {
                self.ports = half.clamp(1, 62)
            }
            Word::Narrow(Narrow::Tail) if misread(L::TailWritten) => self.ring.tail = half,
            Word::Narrow(Narrow::Size) if misread(L::SizeBy64Bits) && value >> 32 != 0 => {
                return Err(Refusal::Value)
            }
            Word::Lower(Wide::LinkStatus) if misread(L::LinkStatusWritten) => self.links = value,
            Word::Lower(Wide::SwitchId) if misread(L::SwitchIdWritten) => self.switch_id = value,
            _ => {}
        }
        match (width, word(offset)) {
            (_, Word::Bogus | Word::Reserved) => Ok(Written::default()),
            (4, Word::Narrow(register)) => self.write_narrow(register, half),
            (4, Word::Lower(register)) => {
                if misread(L::LowerBaseChecked) && register == Wide::BaseAddr && half % 8 != 0 {
                    return Err(Refusal::Value);
                }
                if misread(L::LowerBaseMovesHead) && register == Wide::BaseAddr {
                    (self.ring.head, self.ring.tail) = (0, 0);
                }
                if let Some(held) = self.held(register) {
                    held.hold = half;
                    if misread(L::LowerWrites) {
                        held.value = held.value >> 32 << 32 | u64::from(half);
                    }
                }
                self.mishare(half);
                Ok(Written::default())
            }
            (4, Word::Upper(register)) => {
                let mut hold = self.held(register).map_or(0, |held| held.hold);
                if misread(L::UpperTakesOldLower) {
                    hold = self.held(register).map_or(0, |held| held.value as u32);
                }
                let ring = self.ring;
                let done = self.write_wide(register, u64::from(half) << 32 | u64::from(hold));
                let labels = (L::UpperKeepsHold, L::RefusedUpperClearsHold);
                self.mishold(register, hold, done.is_ok(), labels);
                if misread(L::UpperBaseKeepsHead) {
                    (self.ring.head, self.ring.tail) = (ring.head, ring.tail);
                }
                done
            }
            (_, Word::Lower(register)) => {
                let hold = self.held(register).map_or(0, |held| held.hold);
                let done = self.write_wide(register, value);
                let labels = (L::EightBytesKeepHold, L::RefusedEightBytesClearHold);
                self.mishold(register, hold, done.is_ok(), labels);
                done
            }
            (_, Word::Narrow(_) | Word::Upper(_)) => Err(Refusal::Access),
        }
    }

    /// Two misreadings of when a hold is cleared.
    fn mishold(&mut self, register: Wide, hold: u32, accepted: bool, (keeps, clears): (L, L)) {
        if let Some(held) = self.held(register) {
            if accepted && misread(keeps) {
                held.hold = hold;
            }
            if !accepted && misread(clears) {
                held.hold = 0;
            }
        }
    }

    /// One hold for all is as many that are always the same.
    fn mishare(&mut self, hold: u32) {
        if misread(L::OneHold) {
            for held in [&mut self.test64, &mut self.enable, &mut self.ring.base] {
                held.hold = hold;
            }
        }
    }

    /// The register with its hold; those that are read only have none.
    fn held(&mut self, register: Wide) -> Option<&mut Held> {
        match register {
            Wide::Test64 => Some(&mut self.test64),
            Wide::Enable => Some(&mut self.enable),
            Wide::BaseAddr => Some(&mut self.ring.base),
            Wide::LinkStatus | Wide::SwitchId => None,
        }
    }

    fn write_wide(&mut self, register: Wide, value: u64) -> Result<Written, Refusal> {
        let kept = match register {
            Wide::BaseAddr if misread(L::BaseOf4) && value % 8 == 4 => value,
            Wide::BaseAddr if misread(L::BaseOf16) && value % 16 != 0 => {
                return Err(Refusal::Value)
            }
            Wide::BaseAddr if misread(L::BaseOf32) && value % 32 != 0 => {
                return Err(Refusal::Value)
            }
            Wide::BaseAddr if misread(L::BaseCounted) && value.count_ones() != 1 => {
                return Err(Refusal::Value)
            }
            Wide::BaseAddr if !value.is_multiple_of(8) => {
                if misread(L::RefusedBaseMovesHead) {
                    (self.ring.head, self.ring.tail) = (0, 0);
                }
                return Err(Refusal::Value);
            }
            Wide::Enable if misread(L::EnableFromBit0) => value << 1 & self.port_bits(),
            Wide::Enable if misread(L::EnableKeepsBit0) => value & (self.port_bits() | 1),
            Wide::Enable if misread(L::EnableKeepsHighBits) => value & !1,
            Wide::Enable if misread(L::EnableRefusesBits) && value & !self.port_bits() != 0 => {
                return Err(Refusal::Value)
            }
            Wide::Enable => value & self.port_bits(),
            _ => value,
        };
        // An accepted write clears the hold; a refused one left above keeps it.
        if let Some(held) = self.held(register) {
            *held = Held {
                value: kept,
                hold: 0,
            };
        }
        self.mishare(0);
        if register == Wide::BaseAddr {
            let old = self.ring;
            self.ring.head = 0;
            self.ring.tail = 0;
            match () {
                _ if misread(L::BaseKeepsHead) => self.ring.head = old.head,
                _ if misread(L::BaseKeepsTail) => self.ring.tail = old.tail,
                _ if misread(L::BaseDropsCredits) => self.ring.credits = 0,
                _ if misread(L::BaseDropsSize) => self.ring.size = 0,
                _ => {}
            }
        }
        Ok(Written::default())
    }

    fn write_narrow(&mut self, register: Narrow, value: u32) -> Result<Written, Refusal> {
        let ring = &mut self.ring;
        let old = *ring;
        let mut done = Written::default();
        match register {
            Narrow::Test => self.test = value,
            Narrow::Control => {
                if value & 1 != 0 || misread(L::ControlAnyBit) && value != 0 {
                    // Port count, switch ID and links outlive a reset.
                    let before = self.clone();
                    *self = Registers::fresh(self.ports, self.switch_id);
                    self.links = before.links;
                    self.misreset(&before);
                    done.reset = true;
                }
            }
            Narrow::PortCount | Narrow::Tail => {}
            Narrow::Size => {
                let value = mistaken_size(value);
                if !takes_size(value, old.size) {
                    return ring.refused_size(value);
                }
                ring.size = value;
                ring.head = 0;
                ring.tail = 0;
                match () {
                    _ if misread(L::SizeIsCount) => ring.size = value.count_ones(),
                    _ if misread(L::SizeKeepsHead) => ring.head = old.head,
                    _ if misread(L::SizeKeepsTail) => ring.tail = old.tail,
                    _ if misread(L::SizeKeepsBoth) => (ring.head, ring.tail) = (old.head, old.tail),
                    _ if misread(L::SizeSameKeepsHead) && value == old.size => *ring = old,
                    _ if misread(L::SizeDropsCredits) => ring.credits = 0,
                    _ if misread(L::SizeDropsBase) => ring.base.value = 0,
                    _ if misread(L::SizeDropsHold) => ring.base.hold = 0,
                    _ => {}
                }
            }
            Narrow::Head => {
                let value = if misread(L::HeadBy16Bits) {
                    value & 0xffff
                } else {
                    value
                };
                if !ring.takes_head(value) {
                    if misread(L::RefusedHeadMoves) {
                        ring.head = value;
                    }
                    return Err(Refusal::Value);
                }
                ring.head = value;
                if misread(L::HeadMovesByOne) && value != old.head {
                    ring.head = (old.head + 1) % ring.size;
                }
                if misread(L::HeadSameIsWork) && value == old.head {
                    ring.tail = ring.tail.wrapping_sub(1) % ring.size;
                }
            }
            Narrow::Ctrl => {
                if value & 1 != 0 || misread(L::CtrlAnyBit) && value != 0 {
                    *ring = Ring::default();
                    match () {
                        _ if misread(L::CtrlKeepsBase) => ring.base.value = old.base.value,
                        _ if misread(L::CtrlKeepsHold) => ring.base.hold = old.base.hold,
                        _ if misread(L::CtrlKeepsSize) => ring.size = old.size,
                        _ if misread(L::CtrlKeepsHead) => ring.head = old.head,
                        _ if misread(L::CtrlKeepsTail) => ring.tail = old.tail,
                        _ if misread(L::CtrlKeepsCredits) => ring.credits = old.credits,
                        _ if misread(L::CtrlDropsOtherHolds) => {
                            (self.test64.hold, self.enable.hold) = (0, 0)
                        }
                        _ => done.reset = misread(L::CtrlResetsDevice),
                    }
                }
            }
            Narrow::Credits => {
                if misread(L::CreditsAllRefused) && value == ring.credits && value > 0 {
                    return Err(Refusal::Value);
                }
                let over = misread(L::CreditsOverTakesAll) && value > ring.credits;
                let value = if over { ring.credits } else { value };
                if value > ring.credits {
                    if misread(L::RefusedCreditsTaken) {
                        ring.credits = 0;
                    }
                    return Err(Refusal::Value);
                }
                ring.credits -= value;
                match () {
                    _ if misread(L::CreditsWriteSets) => ring.credits = value,
                    _ if misread(L::CreditsWriteDrops) => ring.credits = 0,
                    _ => {}
                }
                done.raised = match () {
                    _ if misread(L::CreditsRaiseAlways) => true,
                    _ if misread(L::CreditsRaiseNever) => false,
                    _ if misread(L::CreditsRaiseAtNone) => ring.credits == 0,
                    _ if misread(L::CreditsOfNoneQuiet) && value == 0 => false,
                    _ => ring.credits > 0,
                };
            }
        }
        Ok(done)
    }
}

/// The range of a SIZE.
const SIZES: RangeInclusive<u32> = 2..=65_536;

/// A power of two from 2 to 65,536: one count of the ones, and a range.
fn is_size(value: u32) -> bool {
    value.count_ones() == 1 && SIZES.contains(&value)
}

/// Whether a SIZE is accepted over the one that is there.
fn takes_size(value: u32, old: u32) -> bool {
    let (ones, within) = (value.count_ones(), SIZES.contains(&value));
    match value {
        0 if misread(L::Size0Taken) => true,
        1 if misread(L::Size1Taken) => true,
        2 if misread(L::Size2Refused) => false,
        65_536 if misread(L::Size65536Refused) => false,
        131_072 if misread(L::Size131072Taken) => true,
        _ if misread(L::SizeAnyNumber) => within,
        _ if misread(L::SizeEven) => within && value % 2 == 0,
        _ if misread(L::SizeTwoOnes) => within && ones <= 2,
        _ if misread(L::SizeOddOnes) => within && ones % 2 == 1,
        // A run begins with a one above a zero.
        _ if misread(L::SizeOneRun) => within && (value & !(value << 1)).count_ones() == 1,
        _ if misread(L::SizeOneInEachByte) => {
            within && value.to_le_bytes().iter().all(|byte| byte.count_ones() < 2)
        }
        _ if misread(L::SizeLessOneCounted) => within && (value - 1).count_ones() == 1,
        _ if misread(L::SizeZerosCounted) => within && value.count_zeros() == 1,
        _ if misread(L::SizeCountedOnce) && old > 0 => within,
        _ if misread(L::SizeAtMostOne) => ones <= 1 && value <= *SIZES.end(),
        _ if misread(L::SizePowersAbove) => ones == 1 && value >= *SIZES.start(),
        _ if misread(L::SizeAnyPower) => ones == 1,
        _ if misread(L::SizeCountOrRange) => ones == 1 || within,
        _ => is_size(value),
    }
}

/// What misreadings take a SIZE for before it is tested.
fn mistaken_size(value: u32) -> u32 {
    match value {
        _ if misread(L::SizeBy16Bits) => value & 0xffff,
        _ if misread(L::SizeBy17Bits) => value & 0x1_ffff,
        _ if misread(L::SizeToNearestEnd) && value.count_ones() == 1 => {
            value.clamp(*SIZES.start(), *SIZES.end())
        }
        _ if !SIZES.contains(&value) => value,
        _ if misread(L::SizeRoundedDown) => 1 << value.ilog2(),
        _ if misread(L::SizeRoundedUp) => value.next_power_of_two(),
        _ => value,
    }
}

#[cfg(test)]
mod tests {
    use super::*;

    fn registers() -> Registers {
        Registers::fresh(4, 0x1122_3344_5566_7788)
    }

    /// A ring of 8 with HEAD 5 and TAIL 2.
    fn ring_8_5_2() -> Registers {
        let mut r = registers();
        r.write(4, 0x1008, 8).unwrap();
        r.write(4, 0x100c, 5).unwrap();
        r.ring.tail = 2;
        r
    }

    #[test]
    fn p1_head_1_is_accepted_and_7_are_outstanding() {
        let mut r = ring_8_5_2();
        assert!(r.write(4, 0x100c, 1).is_ok());
        assert_eq!(r.ring.outstanding(), 7);
    }

    #[test]
    fn p2_head_2_would_fill_the_ring() {
        let mut r = ring_8_5_2();
        assert_eq!(r.write(4, 0x100c, 2), Err(Refusal::Value));
        assert_eq!(r, ring_8_5_2());
    }

    #[test]
    fn p3_an_unchanged_head_posts_nothing() {
        let mut r = ring_8_5_2();
        assert_eq!(r.write(4, 0x100c, 5), Ok(Written::default()));
        assert_eq!(r.ring.outstanding(), 3);
    }

    #[test]
    fn p4_head_8_is_not_below_size() {
        assert_eq!(ring_8_5_2().write(4, 0x100c, 8), Err(Refusal::Value));
    }

    #[test]
    fn heads_behind_the_posted_ones_are_refused() {
        // 3 and 4 lie between TAIL and HEAD; going there would pass TAIL.
        for new in [2, 3, 4] {
            assert_eq!(ring_8_5_2().write(4, 0x100c, new), Err(Refusal::Value));
        }
        for new in [5, 6, 7, 0, 1] {
            assert!(ring_8_5_2().write(4, 0x100c, new).is_ok());
        }
    }

    #[test]
    fn p5_p6_sizes() {
        let mut r = registers();
        assert!(r.write(4, 0x1008, 65_536).is_ok());
        assert_eq!(r.ring.size, 65_536);
        for bad in [3, 0, 1, 131_072, 6, 65_535, 0x8000_0000, 0xffff_ffff] {
            assert_eq!(r.write(4, 0x1008, bad), Err(Refusal::Value));
        }
        assert_eq!(r.ring.size, 65_536);
        assert!(r.write(4, 0x1008, 2).is_ok());
    }

    /// The sixteen SIZEs, by doubling.
    fn doubled() -> Vec<u32> {
        std::iter::successors(Some(2), |size| Some(size * 2))
            .take(16)
            .collect()
    }

    /// Every number with one, two or three ones, each with its neighbours.
    fn few_ones() -> impl Iterator<Item = u32> {
        let pairs = (0..32).flat_map(|a| (0..=a).map(move |b| 1u32 << a | 1 << b));
        let threes = pairs.flat_map(|two| (0..32).map(move |c| two | 1 << c));
        threes.flat_map(|few| [few - 1, few, few + 1])
    }

    #[test]
    fn one_count_and_a_range_are_the_sixteen_powers() {
        let powers = doubled();
        // How the test was done before request 2026-04.
        let before = |value: u32| value.is_power_of_two() && (2..=65_536).contains(&value);
        for value in (0..=1 << 20).chain(few_ones()).chain([u32::MAX]) {
            let told = powers.contains(&value);
            assert_eq!([is_size(value), before(value)], [told; 2], "{value:#x}");
        }
        assert_eq!(powers.iter().filter(|size| is_size(**size)).count(), 16);
    }

    #[test]
    fn a_size_is_told_by_its_low_32_bits_and_refused_without_a_trace() {
        let (powers, mut old) = (doubled(), ring_8_5_2());
        old.ring.credits = 9;
        let above = [0, 1 << 32, u64::MAX << 32];
        for (value, above) in few_ones().flat_map(|value| above.map(|above| (value, above))) {
            let mut new = old.clone();
            let done = new.write(4, 0x1008, above | u64::from(value));
            if powers.contains(&value) {
                assert_eq!(done, Ok(Written::default()));
                let ring = &new.ring;
                assert_eq!((ring.size, ring.head, ring.tail), (value, 0, 0));
                new.ring = Ring {
                    size: 8,
                    head: 5,
                    tail: 2,
                    ..new.ring
                };
            } else {
                assert_eq!(done, Err(Refusal::Value));
            }
            assert_eq!(new, old);
        }
    }

    #[test]
    fn p7_test_registers_show_twice_the_value() {
        let mut r = registers();
        r.write(4, 0x10, 0x8000_0001).unwrap();
        assert_eq!(r.read(4, 0x10), Ok(2));
        r.write(8, 0x18, 0x8000_0000_8000_0001).unwrap();
        assert_eq!(r.read(8, 0x18), Ok(0x1_0000_0002));
        assert_eq!(r.read(4, 0x18), Ok(2));
        assert_eq!(r.read(4, 0x1c), Ok(1));
    }

    #[test]
    fn p8_p9_credits() {
        let mut r = registers();
        r.ring.credits = 3;
        assert_eq!(r.write(4, 0x1018, 4), Err(Refusal::Value));
        let mut all = r.clone();
        assert!(!all.write(4, 0x1018, 3).unwrap().raised);
        assert_eq!(all.ring.credits, 0);
        assert!(r.write(4, 0x1018, 2).unwrap().raised);
        assert_eq!(r.ring.credits, 1);
        assert!(r.write(4, 0x1018, 0).unwrap().raised);
        assert!(!all.write(4, 0x1018, 0).unwrap().raised);
    }

    #[test]
    fn shapes() {
        let r = registers();
        for offset in (0..0x2000).step_by(4) {
            assert!(r.read(4, offset).is_ok());
        }
        let refused = [0x10, 0x300, 0x1008, 0x1010, 0x1018];
        for offset in (0..0x2000u64).step_by(8) {
            assert_eq!(r.read(8, offset).is_err(), refused.contains(&offset));
        }
        let odd = [
            (4, 2),
            (4, 0x2000),
            (8, 4),
            (8, 0x1c),
            (8, 0x2000),
            (8, 0x1ffc),
            (2, 0),
            (1, 0),
            (0, 0),
            (16, 0),
            (12, 0),
            (4, u64::MAX - 3),
            (8, u64::MAX - 7),
            (0x1_0000_0004, 0),
            (4, 0x1_0000_0010),
        ];
        for (width, offset) in odd {
            assert_eq!(r.read(width, offset), Err(Refusal::Access));
            let mut w = r.clone();
            assert_eq!(w.write(width, offset, 1), Err(Refusal::Access));
            assert_eq!(w, r);
        }
    }

    #[test]
    fn fixed_places() {
        let mut r = registers();
        r.links = 0b10100;
        let before = r.clone();
        assert_eq!(r.read(4, 0xc), Ok(0xDEAD_BABE));
        assert_eq!(r.read(8, 0), Ok(0xDEAD_BABE_DEAD_BABE));
        assert_eq!(r.read(8, 8), Ok(0xDEAD_BABE_DEAD_BABE));
        assert_eq!(r.read(4, 0x304), Ok(4));
        assert_eq!(r.read(8, 0x310), Ok(0b10100));
        assert_eq!(r.read(4, 0x320), Ok(0x5566_7788));
        assert_eq!(r.read(4, 0x324), Ok(0x1122_3344));
        for offset in [
            0, 4, 8, 0x304, 0x310, 0x314, 0x320, 0x324, 0x1010, 0x101c, 0x20, 0x1ffc,
        ] {
            assert_eq!(r.write(4, offset, u64::MAX), Ok(Written::default()));
        }
        for offset in [0, 8, 0x20, 0x308, 0x310, 0x320, 0x1ff8] {
            assert_eq!(r.write(8, offset, u64::MAX), Ok(Written::default()));
        }
        assert_eq!(r, before);
    }

    #[test]
    fn each_wide_register_has_its_own_hold() {
        let mut r = registers();
        r.write(4, 0x18, 0x10).unwrap();
        r.write(4, 0x318, 0x6).unwrap();
        r.write(4, 0x1000, 0x40).unwrap();
        assert_eq!(
            (r.test64.value, r.enable.value, r.ring.base.value),
            (0, 0, 0)
        );
        r.write(4, 0x1004, 1).unwrap();
        r.write(4, 0x31c, 1).unwrap();
        r.write(4, 0x1c, 1).unwrap();
        assert_eq!(r.ring.base.value, 0x1_0000_0040);
        assert_eq!(r.enable.value, 6);
        assert_eq!(r.test64.value, 0x1_0000_0010);
    }

    #[test]
    fn a_cleared_hold_is_zero_and_a_refused_write_keeps_it() {
        let mut r = registers();
        r.write(4, 0x1000, 0x44).unwrap();
        assert_eq!(r.write(4, 0x1004, 1), Err(Refusal::Value));
        assert_eq!(
            r.ring.base,
            Held {
                value: 0,
                hold: 0x44
            }
        );
        assert_eq!(r.write(8, 0x1000, 12), Err(Refusal::Value));
        assert_eq!(r.ring.base.hold, 0x44);
        r.write(8, 0x1000, 16).unwrap();
        r.write(4, 0x1004, 2).unwrap();
        assert_eq!(r.ring.base.value, 0x2_0000_0000);
    }

    #[test]
    fn base_and_size_set_head_and_tail_to_zero_and_keep_credits() {
        for (width, offset, value) in [(8, 0x1000, 64), (4, 0x1004, 0), (4, 0x1008, 4)] {
            let mut r = ring_8_5_2();
            r.ring.credits = 9;
            r.write(width, offset, value).unwrap();
            assert_eq!((r.ring.head, r.ring.tail, r.ring.credits), (0, 0, 9));
        }
        // The lower half is not yet a write of the register.
        let mut r = ring_8_5_2();
        r.write(4, 0x1000, 64).unwrap();
        assert_eq!((r.ring.head, r.ring.tail), (5, 2));
    }

    #[test]
    fn a_ring_reset_zeroes_the_ring_with_its_hold_only() {
        let mut r = ring_8_5_2();
        r.ring.credits = 2;
        r.write(4, 0x1000, 8).unwrap();
        r.write(4, 0x18, 8).unwrap();
        r.write(4, 0x1014, 2).unwrap();
        assert_eq!(r.ring.size, 8);
        r.write(4, 0x1014, 3).unwrap();
        assert_eq!(r.ring, Ring::default());
        assert_eq!(r.test64.hold, 8);
        assert_eq!(r.read(4, 0x1014), Ok(0));
    }

    #[test]
    fn a_device_reset_keeps_ports_switch_id_and_links() {
        let mut r = ring_8_5_2();
        r.links = 6;
        r.write(4, 0x10, 1).unwrap();
        r.write(8, 0x18, 1).unwrap();
        r.write(4, 0x18, 1).unwrap();
        r.write(8, 0x318, 6).unwrap();
        assert!(!r.write(4, 0x300, 0xffff_fffe).unwrap().reset);
        assert!(r.write(4, 0x300, 0x1_0000_0001).unwrap().reset);
        let mut expected = registers();
        expected.links = 6;
        assert_eq!(r, expected);
    }

    #[test]
    fn enable_drops_bits_of_no_port() {
        let mut r = registers();
        r.write(8, 0x318, u64::MAX).unwrap();
        assert_eq!(r.read(8, 0x318), Ok(0b11110));
        let mut r = Registers::fresh(62, 0);
        r.write(8, 0x318, u64::MAX).unwrap();
        assert_eq!(r.read(8, 0x318), Ok(0x7fff_ffff_ffff_fffe));
    }

    #[test]
    fn without_a_size_every_head_is_refused() {
        for new in [0, 1, 5] {
            assert_eq!(registers().write(4, 0x100c, new), Err(Refusal::Value));
        }
    }

    #[test]
    fn a_4_byte_write_takes_the_low_32_bits() {
        let mut r = registers();
        r.write(4, 0x1008, 0xabcd_0000_0008).unwrap();
        assert_eq!(r.ring.size, 8);
        r.write(4, 0x100c, 0x1_0000_0003).unwrap();
        assert_eq!(r.ring.head, 3);
        assert!(r.write(4, 0x1018, 0x5_0000_0000).is_ok());
    }
}
