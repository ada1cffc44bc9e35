//! Payloads with their lengths counted as in the other version. They keep
//! their size, and each TLV its place.

use crate::tables::{field, CMD_INFO, CMD_TYPE};
use crate::tlv::{Place, Version, HEAD};
use std::ops::Range;

/// A payload of version 1 as one of versions 2 and 3 that does the same, also where
/// it is ill formed: a length that goes past the region's end still does, and
/// bytes that are no header stay.
pub fn newer(payload: &[u8]) -> Vec<u8> {
    let mut out = payload.to_vec();
    recount(&mut out, Place::Top, Version::One, &|_, _| true);
    out
}

/// A payload of versions 2 and 3 as one of version 1 that does the same, unless a
/// length is under 8: it stays, with all that follows it.
pub fn older(payload: &[u8]) -> Vec<u8> {
    let mut out = payload.to_vec();
    recount(&mut out, Place::Top, Version::DEVICE, &|_, _| true);
    out
}

/// Counts lengths anew in a region and its nests, as far as they are well
/// formed: those that are chosen, by their region and type.
pub fn recount(
    region: &mut [u8],
    place: Place,
    from: Version,
    chosen: &dyn Fn(Place, u32) -> bool,
) {
    let mut at = 0;
    while let Some(head) = region.get_mut(at..at + HEAD) {
        let kind = u32::from_le_bytes([head[0], head[1], head[2], head[3]]);
        let length = u16::from_le_bytes([head[4], head[5]]);
        let Some(value) = usize::from(length).checked_sub(from.counted()) else {
            return;
        };
        if chosen(place, kind) {
            let other = match from {
                Version::One => length.saturating_add(HEAD as u16),
                _ => length - HEAD as u16,
            };
            head[4..6].copy_from_slice(&other.to_le_bytes());
        }
        let end = at + HEAD + value;
        if let (Some(inside), Some(value)) = (nest(place, kind), region.get_mut(at + HEAD..end)) {
            recount(value, inside, from, chosen);
        }
        at = end.next_multiple_of(8);
    }
}

/// A payload of version 1 or 2, with lengths as the device has them, as one of version 3 that completes alike: what these versions refuse for
/// its table or its group type has another one, which is refused in all of them. Tables 20 and 30 become 40, group type 2 becomes 1.
pub fn refused_still(payload: &[u8]) -> Vec<u8> {
    let mut out = payload.to_vec();
    let top = places(payload, 0..payload.len());
    let code = top.iter().find(|(kind, _)| *kind == CMD_TYPE);
    let code = code.map_or(0, |(_, place)| {
        payload[place.clone()].first().map_or(0, |b| *b)
    });
    for (_, info) in top.iter().filter(|(kind, _)| *kind == CMD_INFO) {
        for (kind, place) in places(payload, info.clone()) {
            match (code, kind, &payload[place.clone()]) {
                (3 | 4, field::TBL, [20 | 30, 0]) => out[place.start] = 40,
                (7..=9, field::GROUP_ID, [_, _, _, high]) if high >> 4 == 2 => {
                    out[place.end - 1] = 0x10 | high & 0x0f;
                }
                _ => {}
            }
        }
    }
    out
}

/// The types and values of a region in its payload, as far as it is well formed.
fn places(payload: &[u8], region: Range<usize>) -> Vec<(u32, Range<usize>)> {
    let (mut found, mut at) = (Vec::new(), region.start);
    while at + HEAD <= region.end {
        let kind = u32::from_le_bytes([
            payload[at],
            payload[at + 1],
            payload[at + 2],
            payload[at + 3],
        ]);
        let length = usize::from(u16::from_le_bytes([payload[at + 4], payload[at + 5]]));
        if length < HEAD || at + length > region.end {
            break;
        }
        found.push((kind, at + HEAD..at + length));
        at += length.next_multiple_of(8);
    }
    found
}

/// The region that a TLV's value is, if it is one.
pub fn nest(place: Place, kind: u32) -> Option<Place> {
    match (place, kind) {
        (Place::Top, CMD_INFO) => Some(Place::Info),
        (Place::Info, field::GROUP_IDS) => Some(Place::Members),
        _ => None,
    }
}
