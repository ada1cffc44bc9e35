//! TLV regions: the split into whole TLVs, and fields looked up by type.

use crate::misread::{misread, Form, How, Label as L, FIELDS};
use crate::recount::nest;
use crate::tables::{field, id_type, EtherType, Status, CMD_INFO, CMD_TYPE};

/// The version of a trail, which says what a TLV's length counts and which tables and group types there are.
#[derive(Clone, Copy, Debug, PartialEq, Eq)]
pub enum Version {
    /// The value alone, as in the build description.
    One = 1,
    /// The header and the value, as in request 2026-02.
    Two = 2,
    /// The same, with tables 20 and 30 and group type 2, as in request 2026-03.
    Three = 3,
}

impl Version {
    /// What a device obeys, and what it writes.
    pub const DEVICE: Version = Version::Three;

    /// All that are known.
    pub const ALL: [Version; 3] = [Version::One, Version::Two, Version::Three];

    /// How many header bytes a length counts beside the value.
    pub fn counted(self) -> usize {
        match self {
            Version::One => 0,
            Version::Two => HEAD,
            Version::Three if misread(L::Version3LengthsOld) => 0,
            Version::Three => HEAD,
        }
    }

    /// Whether it has tables 20 and 30 and group type 2.
    pub fn routes(self) -> bool {
        match self {
            Version::One => misread(L::Version1Routes),
            Version::Two => misread(L::Version2Routes),
            Version::Three => true,
        }
    }

    /// One with the other meaning of lengths; for misreadings and makers of input.
    pub fn other(self) -> Version {
        match self {
            Version::One => Version::Two,
            Version::Two | Version::Three => Version::One,
        }
    }
}

/// Type, length and pad.
pub const HEAD: usize = 8;

/// Which region is walked. All are walked alike; only misreadings look at it.
#[derive(Clone, Copy, Debug, PartialEq, Eq)]
pub enum Place {
    Top,
    Info,
    Members,
}

/// One TLV: its type and its value without the fill.
#[derive(Clone, Copy, Debug, PartialEq, Eq)]
pub struct Tlv<'a> {
    pub kind: u32,
    pub value: &'a [u8],
}

/// The TLVs of a region, or `None` when whole TLVs with their fill do not
/// cover it exactly, or a length is less than the header bytes that it counts.
/// Pad and fill are not looked at.
pub fn split(region: &[u8], version: Version, place: Place) -> Option<Vec<Tlv<'_>>> {
    let mut rest = region;
    let mut found = Vec::new();
    while !rest.is_empty() {
        match rest.len() {
            ..=7 if misread(L::RestSkipped) => break,
            4 if misread(L::RestOf4Skipped) => break,
            _ => {}
        }
        if rest.len() < HEAD {
            return None;
        }
        let mut kind = u32::from_le_bytes([rest[0], rest[1], rest[2], rest[3]]);
        let mut length = usize::from(u16::from_le_bytes([rest[4], rest[5]]));
        let pad = usize::from(u16::from_le_bytes([rest[6], rest[7]]));
        match () {
            _ if misread(L::TypeBy8Bits) => kind &= 0xff,
            _ if misread(L::TypeBigEndian) => kind = kind.swap_bytes(),
            _ if misread(L::LengthBigEndian) => length = (length % 256) << 8 | length >> 8,
            _ if misread(L::Type0Ends) && kind == 0 => break,
            _ if misread(L::LengthTakesPad) => length |= pad << 16,
            _ if misread(L::PadZero) && pad != 0 => return None,
            _ => {}
        }
        let length = match value_length(length, kind, version, place) {
            Length::Value(length) => length,
            Length::IllFormed => return None,
            Length::Ends => break,
            Length::Skipped => {
                rest = &rest[HEAD..];
                continue;
            }
        };
        let filled = match () {
            _ if misread(L::FillTo4) => length.div_ceil(4) * 4,
            _ if misread(L::FillNone) => length,
            _ if misread(L::FillAlways) => (length / 8 + 1) * 8,
            _ if misread(L::FillByLength) => (length + version.counted()).div_ceil(8) * 8,
            _ => length.div_ceil(8) * 8,
        };
        let body = &rest[HEAD..];
        if body.len() < filled {
            let missing = misread(L::LastFillMissing) && body.len() >= length;
            let by_head = misread(L::OverlongByHeadCut) && filled - body.len() <= HEAD;
            if missing || by_head || misread(L::OverlongCut) {
                let value = &body[..length.min(body.len())];
                found.push(Tlv { kind, value });
                break;
            }
            return None;
        }
        if misread(L::FillZero) && body[length..filled].iter().any(|byte| *byte != 0) {
            return None;
        }
        let value = match is_nest(kind, place) && misread(L::NestTakesHead) {
            true => &rest[..HEAD + length],
            false => &body[..length],
        };
        found.push(Tlv { kind, value });
        rest = &body[filled..];
    }
    Some(found)
}

/// What a length says. Without a misreading it is one of the first two.
enum Length {
    /// How long the value is.
    Value(usize),
    IllFormed,
    /// The region ends before this TLV.
    Ends,
    /// The TLV is left out; it is 8 bytes long.
    Skipped,
}

/// The length of a value: what is left of a length without the header bytes
/// that it counts. A length that is less than these is ill formed.
fn value_length(length: usize, kind: u32, version: Version, place: Place) -> Length {
    let counted = counted(length, kind, version, place);
    let whole = length.checked_sub(counted).map(Length::Value);
    match length {
        _ if misread(L::EmptyValueRefused) && length == counted => Length::IllFormed,
        ..8 if version == Version::One => match length {
            0 if misread(L::OldLength0Refused) => Length::IllFormed,
            _ if misread(L::OldUnder8Refused) => Length::IllFormed,
            _ => whole.unwrap_or(Length::IllFormed),
        },
        0 if misread(L::Length0Empty) => Length::Value(0),
        0 if misread(L::Length0TopEmpty) && place == Place::Top => Length::Value(0),
        0 if misread(L::Length0Ends) => Length::Ends,
        7 if misread(L::Length7Empty) => Length::Value(0),
        8 if misread(L::Length8Refused) => Length::IllFormed,
        ..8 if misread(L::Under8Empty) => Length::Value(0),
        ..8 if misread(L::Under8TopEmpty) && place == Place::Top => Length::Value(0),
        ..8 if misread(L::Under8InfoEmpty) && place == Place::Info => Length::Value(0),
        ..8 if misread(L::Under8UnlistedEmpty) && !is_listed(kind, place) => Length::Value(0),
        ..8 if misread(L::Under8Skipped) => Length::Skipped,
        ..8 if misread(L::Under8MembersSkipped) && place == Place::Members => Length::Skipped,
        ..8 if misread(L::Under8Ends) => Length::Ends,
        _ => whole.unwrap_or(Length::IllFormed),
    }
}

/// How many header bytes a length counts: those of its version, unless that is
/// misread for this region, for nests or for short lengths.
fn counted(length: usize, kind: u32, version: Version, place: Place) -> usize {
    let (old, new) = (0, HEAD);
    match (version, place) {
        (Version::One, Place::Top) if misread(L::OldTopNew) => new,
        (Version::One, Place::Info) if misread(L::OldInfoNew) => new,
        (Version::One, Place::Members) if misread(L::OldMembersNew) => new,
        (Version::One, _) if misread(L::OldNestNew) && is_nest(kind, place) => new,
        (Version::One, _) => version.counted(),
        (_, Place::Top) if misread(L::TopOld) => old,
        (_, Place::Info) if misread(L::InfoOld) => old,
        (_, Place::Members) if misread(L::MembersOld) => old,
        _ if misread(L::NestOld) && is_nest(kind, place) => old,
        _ if misread(L::UnlistedOld) && !is_listed(kind, place) => old,
        _ if misread(L::Under8Old) && length < new => old,
        (_, Place::Members) if misread(L::Under8MembersOld) && length < new => old,
        _ if misread(L::LengthWithoutPad) => 6,
        _ => version.counted(),
    }
}

fn is_nest(kind: u32, place: Place) -> bool {
    nest(place, kind).is_some()
}

fn is_listed(kind: u32, place: Place) -> bool {
    match place {
        Place::Top => [CMD_TYPE, CMD_INFO].contains(&kind),
        Place::Info => FIELDS.iter().any(|(known, _, _)| *known == kind),
        Place::Members => true,
    }
}

/// Whether what makes a region ill formed is a length under 8; for misreadings
/// of its place in the order alone.
pub fn ends_under_8(region: &[u8], version: Version, place: Place) -> bool {
    let good = (0..=region.len() / 8).rev().map(|end| 8 * end);
    let good = good.filter(|end| split(&region[..*end], version, place).is_some());
    let rest = good.max().map_or(&[][..], |end| &region[end..]);
    version != Version::One && rest.len() >= HEAD && rest[4] < 8 && rest[5] == 0
}

/// A well formed region whose fields are asked for by type. Only what is asked
/// for is checked, so fields that a command does not use are skipped.
pub struct Fields<'a> {
    tlvs: Vec<Tlv<'a>>,
    version: Version,
    /// The form of the command, inside CMD_INFO; only misreadings look at it.
    form: Option<Form>,
}

impl<'a> Fields<'a> {
    /// The top of a payload.
    pub fn of(region: &'a [u8], version: Version) -> Result<Self, Status> {
        let tlvs = split(region, version, Place::Top).ok_or(Status::Einval)?;
        let listed = |tlv: &Tlv| [CMD_TYPE, CMD_INFO].contains(&tlv.kind);
        if misread(L::TopUnlistedRefused) && !tlvs.iter().all(listed) {
            return Err(Status::Einval);
        }
        Ok(Fields {
            tlvs,
            version,
            form: None,
        })
    }

    /// The nest of CMD_INFO.
    pub fn info(region: &'a [u8], code: u16, version: Version) -> Result<Self, Status> {
        let tlvs = split(region, version, Place::Info).ok_or(Status::Einval)?;
        let listed = |tlv: &Tlv| FIELDS.iter().any(|(kind, _, _)| *kind == tlv.kind);
        if misread(L::InfoUnlistedRefused) && !tlvs.iter().all(listed) {
            return Err(Status::Einval);
        }
        let mut fields = Fields {
            tlvs,
            version,
            form: None,
        };
        let table = fields.peek(field::TBL).map_or(0, u16::from_le_bytes);
        let id = fields.peek(field::GROUP_ID).map_or(0, u32::from_le_bytes);
        let v6 = fields.peek(field::ETHERTYPE) == Some(EtherType::Ipv6.bytes());
        fields.form = Some(Form::of(code, table, v6, id_type(id)));
        Ok(fields)
    }

    /// The first value of a type, filled up or cut to `N` bytes; for misreadings alone.
    pub fn peek<const N: usize>(&self, kind: u32) -> Option<[u8; N]> {
        let value = self.tlvs.iter().find(|tlv| tlv.kind == kind)?.value;
        let mut bytes = [0; N];
        let length = N.min(value.len());
        bytes[..length].copy_from_slice(&value[..length]);
        Some(bytes)
    }

    /// The version that this region is read by, and with it the nests inside.
    pub fn version(&self) -> Version {
        self.version
    }

    fn misreads(&self, kind: u32, how: How) -> bool {
        self.form
            .is_some_and(|form| misread(L::InForm(form, kind, how)))
    }

    /// Fields that the command does not use are skipped; misreadings refuse one.
    pub fn skipped(&self) -> Result<(), Status> {
        for (kind, _, width) in FIELDS {
            let values = || self.tlvs.iter().filter(|tlv| tlv.kind == kind);
            let odd = |tlv: &Tlv| match width {
                Some(width) => tlv.value.len() != width,
                None => split(tlv.value, self.version, Place::Members).is_none(),
            };
            if self.misreads(kind, How::OddRefused) && values().any(odd)
                || self.misreads(kind, How::TwiceRefused) && values().count() > 1
            {
                return Err(Status::Einval);
            }
        }
        Ok(())
    }

    /// The value of a field of any width; a repeated one is EINVAL.
    pub fn nest(&self, kind: u32) -> Result<Option<&'a [u8]>, Status> {
        let top = self.form.is_none();
        let kind = if !top && misread(L::OtherType(kind)) {
            kind + 1
        } else {
            kind
        };
        let by_16_bits = misread(if top {
            L::TopTypeBy16Bits
        } else {
            L::InfoTypeBy16Bits
        });
        let mask = if by_16_bits { 0xffff } else { u32::MAX };
        let mut values = self
            .tlvs
            .iter()
            .filter(|t| t.kind & mask == kind)
            .map(|t| t.value);
        let first = values.next();
        match values.next() {
            Some(_) if top && misread(L::TopTwiceFirst) => Ok(first),
            Some(second) if top && misread(L::TopTwiceLast) => Ok(values.last().or(Some(second))),
            Some(second) if !top && misread(L::InfoTwiceLast) => Ok(values.last().or(Some(second))),
            Some(second) if misread(L::TwiceEqualTaken) && Some(second) == first => Ok(first),
            Some(_) if self.misreads(kind, How::TwiceTaken) => Ok(first),
            Some(_) => Err(Status::Einval),
            None => Ok(first),
        }
    }

    /// The value of a field of `N` bytes; repeated or of another width is EINVAL.
    pub fn maybe<const N: usize>(&self, kind: u32) -> Result<Option<[u8; N]>, Status> {
        let Some(value) = self.nest(kind)? else {
            return Ok(None);
        };
        let any_width = match kind {
            _ if self.misreads(kind, How::OddTaken) => true,
            CMD_TYPE if self.form.is_none() => {
                misread(L::CmdTypeWider) && value.len() > N
                    || misread(L::CmdTypeNarrower) && value.len() == 1
            }
            _ => false,
        };
        if misread(L::WidthByLength) && value.len() + self.version.counted() != N {
            return Err(Status::Einval);
        }
        let mut bytes: [u8; N] = match value.try_into() {
            Ok(bytes) => bytes,
            Err(_) if any_width => self.peek(kind).ok_or(Status::Einval)?,
            Err(_) => return Err(Status::Einval),
        };
        if self.form.is_some() && misread(L::OtherOrder(kind)) {
            bytes.reverse();
        }
        Ok(Some(bytes))
    }

    /// As `maybe`, but a missing field is EINVAL too.
    pub fn need<const N: usize>(&self, kind: u32) -> Result<[u8; N], Status> {
        match self.maybe(kind)? {
            None if self.misreads(kind, How::MissingTaken) => Ok(instead(self.form, kind)),
            value => value.ok_or(Status::Einval),
        }
    }

    /// As `nest`, but a missing field is EINVAL too.
    pub fn need_nest(&self, kind: u32) -> Result<&'a [u8], Status> {
        match self.nest(kind)? {
            // A member of port 1 in VLAN 1.
            None if self.misreads(kind, How::MissingTaken) => Ok(match self.version {
                Version::One => &[1, 0, 0, 0, 4, 0, 0, 0, 1, 0, 1, 0, 0, 0, 0, 0],
                _ => &[1, 0, 0, 0, 12, 0, 0, 0, 1, 0, 1, 0, 0, 0, 0, 0],
            }),
            value => value.ok_or(Status::Einval),
        }
    }

    /// A field that must not be there, whatever its width and however often it comes.
    pub fn absent(&self, kind: u32, width: usize) -> Result<(), Status> {
        let values: Vec<&[u8]> = self
            .tlvs
            .iter()
            .filter(|tlv| tlv.kind == kind)
            .map(|tlv| tlv.value)
            .collect();
        match values[..] {
            [] => Ok(()),
            _ if self.misreads(kind, How::OtherSkipped) => Ok(()),
            [one] if self.misreads(kind, How::OtherOddSkipped) && one.len() != width => Ok(()),
            [_, _, ..] if self.misreads(kind, How::OtherTwiceSkipped) => Ok(()),
            _ => Err(Status::Einval),
        }
    }

    /// Where a type first stands; for misreadings alone.
    pub fn place(&self, kind: u32) -> Option<usize> {
        self.tlvs.iter().position(|tlv| tlv.kind == kind)
    }
}

/// What a misreading takes for a missing field.
fn instead<const N: usize>(form: Option<Form>, kind: u32) -> [u8; N] {
    let mut bytes = [0; N];
    match kind {
        field::IN_PPORT | field::GROUP_COUNT => bytes[0] = 1,
        field::VLAN_ID => bytes[1] = 1,
        field::ETHERTYPE => bytes[0] = 8,
        field::GOTO_TBL if form == Some(Form::Table20) => bytes[0] = 30,
        field::IN_PPORT_MASK | field::DST_IP_MASK | field::DST_IPV6_MASK => bytes.fill(0xff),
        field::GROUP_ID_LOWER => bytes[2] = 1,
        field::GROUP_ID => bytes[2] = 1,
        _ => {}
    }
    bytes
}

#[cfg(test)]
mod tests {
    use super::*;
    use Version::{One, Three, Two};

    const PLACES: [Place; 3] = [Place::Top, Place::Info, Place::Members];

    /// The types and values of a region, the same in whatever place it stands, and in version 3 as in version 2.
    fn tlvs(region: &[u8], version: Version) -> Option<Vec<(u32, &[u8])>> {
        let [top, info, members] = PLACES.map(|place| split(region, version, place));
        assert!(top == info && info == members);
        assert!(version == One || top == split(region, Three, Place::Top));
        top.map(|tlvs| tlvs.iter().map(|tlv| (tlv.kind, tlv.value)).collect())
    }

    #[test]
    fn p10_a_region_of_8_bytes_is_well_formed() {
        assert_eq!(
            tlvs(&[99, 0, 0, 0, 8, 0, 0, 0], Two),
            Some(vec![(99, &[][..])])
        );
        assert_eq!(
            tlvs(&[99, 0, 0, 0, 0, 0, 0, 0], One),
            Some(vec![(99, &[][..])])
        );
    }

    #[test]
    fn p10_with_another_length_is_not() {
        for length in (0..=7).chain(9..=255) {
            assert_eq!(tlvs(&[99, 0, 0, 0, length, 0, 0, 0], Two), None);
        }
        for length in 1..=255 {
            assert_eq!(tlvs(&[99, 0, 0, 0, length, 0, 0, 0], One), None);
        }
        assert_eq!(tlvs(&[99, 0, 0, 0, 8, 1, 0, 0], Two), None);
    }

    #[test]
    fn p11_a_region_of_12_bytes_is_not() {
        for length in [0, 4, 7, 8, 12, 16] {
            let region = [99, 0, 0, 0, length, 0, 0, 0, 0, 0, 0, 0];
            assert_eq!(tlvs(&region, Two), None);
            assert_eq!(tlvs(&region, One), None);
        }
    }

    #[test]
    fn an_empty_region_is_well_formed() {
        assert_eq!(tlvs(&[], One), Some(vec![]));
        assert_eq!(tlvs(&[], Two), Some(vec![]));
    }

    #[test]
    fn fill_must_be_there_and_is_not_looked_at() {
        for (length, version) in [(3, One), (11, Two)] {
            let mut region = vec![7, 0, 0, 0, length, 0, 0xaa, 0xbb, 1, 2, 3, 9, 9, 9, 9, 9];
            assert_eq!(tlvs(&region, version), Some(vec![(7, &[1, 2, 3][..])]));
            region.pop();
            assert_eq!(tlvs(&region, version), None);
        }
    }

    #[test]
    fn lengths_that_are_multiples_of_8_have_no_fill() {
        for (length, version) in [(8, One), (16, Two)] {
            let mut region = vec![7, 0, 0, 0, length, 0, 0, 0];
            region.extend([1; 8]);
            assert_eq!(tlvs(&region, version), Some(vec![(7, &[1; 8][..])]));
            region.extend([0; 4]);
            assert_eq!(tlvs(&region, version), None);
        }
    }

    #[test]
    fn each_length_of_a_value_in_both_meanings() {
        for size in 0..=40 {
            let body = [5; 40];
            let filled = usize::next_multiple_of(size, 8);
            for (length, version) in [(size, One), (size + 8, Two)] {
                let head = [1, 0, 0, 0, length as u8, 0, 0, 0];
                let region = [&head, &body[..filled]].concat();
                assert_eq!(tlvs(&region, version), Some(vec![(1, &body[..size])]));
                // Another TLV behind it begins where the fill ends.
                let two = [&region[..], &[2, 0, 0, 0, version.counted() as u8, 0, 0, 0]].concat();
                assert_eq!(
                    tlvs(&two, version),
                    Some(vec![(1, &body[..size]), (2, &[])])
                );
            }
        }
    }

    #[test]
    fn a_length_under_8_spoils_the_region_wherever_it_stands() {
        let good = [7, 0, 0, 0, 12, 0, 0, 0, 1, 2, 3, 4, 0, 0, 0, 0];
        for length in 0..8 {
            // 0 to 7 bytes of the old meaning, with their fill.
            for filled in [0, 8] {
                let bad = [&[7, 0, 0, 0, length, 0, 0, 0], &[0; 8][..filled]].concat();
                assert_eq!(tlvs(&[&good, &bad[..]].concat(), Two), None);
                assert_eq!(tlvs(&[&bad, &good[..]].concat(), Two), None);
            }
        }
    }

    #[test]
    fn the_longest_length_does_not_wrap() {
        for version in [One, Two] {
            let mut region = vec![7, 0, 0, 0, 0xff, 0xff, 0, 0];
            assert_eq!(tlvs(&region, version), None);
            let size = 65_535 - version.counted();
            region.extend(vec![0; size.next_multiple_of(8)]);
            let found = tlvs(&region, version).map(|tlvs| tlvs[0].1.len());
            assert_eq!(found, Some(size));
            region.pop();
            assert_eq!(tlvs(&region, version), None);
        }
    }

    #[test]
    fn only_fields_that_are_asked_for_are_checked() {
        let mut region = vec![];
        for _ in 0..2 {
            region.extend([5, 0, 0, 0, 9, 0, 0, 0, 1, 0, 0, 0, 0, 0, 0, 0]);
        }
        region.extend([6, 0, 0, 0, 9, 0, 0, 0, 3, 0, 0, 0, 0, 0, 0, 0]);
        let fields = Fields::info(&region, 3, Two).ok().unwrap();
        assert_eq!(fields.maybe::<1>(6), Ok(Some([3])));
        assert_eq!(fields.maybe::<2>(6), Err(Status::Einval));
        assert_eq!(fields.maybe::<1>(5), Err(Status::Einval));
        assert_eq!(fields.maybe::<1>(4), Ok(None));
        assert_eq!(fields.need::<1>(4), Err(Status::Einval));
    }
}
