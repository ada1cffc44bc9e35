//! What must hold of a list, found out by carrying it out: on the tables, in the trail and by the console.

use super::{first_lines, post, undo, Refusal};
use crate::generate::{self, Evening};
use crate::journal::{self, line, replay, Replayed};
use crate::tables::{field, Status, Tables};
use crate::tlv::{split, Place, Tlv, Version};
use std::collections::BTreeMap;

/// The longest list: each place of both tables is freed and filled again, with the longest entries there are.
pub const LONGEST_LIST: usize = 256 * (42 + 202) + 128 * (42 + 66 + 62 * 16);

/// A list that was checked, how many payloads it has, and the tables that it leads to.
#[derive(Clone, Debug, PartialEq, Eq)]
pub struct Checked {
    pub list: Vec<u8>,
    pub payloads: usize,
    pub then: Tables,
}

/// The list that leads back to the first n lines, carried out after the whole trail, on a device. `Ok(Err(..))` is a refusal, `Err(..)` a
/// failure. Behind a trail of version 1 or 2 the list's lines would be read by another version: there they stand behind the same trail as a
/// device writes it now, which has the same list.
pub fn check(trail: &[u8], n: u64) -> Result<Result<Checked, Refusal>, String> {
    let mut room = vec![0; LONGEST_LIST];
    let told = undo(trail, n, &mut room);
    let expected = match replay(trail) {
        Err(refused) => Err(Refusal::Trail(refused)),
        Ok(now) if n > now.lines => Err(Refusal::Count),
        Ok(now) => Ok(now),
    };
    let (length, now) = match (told, expected) {
        (Ok(length), Ok(now)) => (length, now),
        (Err(told), Err(expected)) if told == expected => return Ok(Err(told)),
        (told, expected) => return Err(format!("{told:?}, not {:?}", expected.err())),
    };
    room.truncate(length);
    let payloads = post::payloads(&room).ok_or("the list is not made of whole payloads")?;
    let good = |trail: &[u8]| replay(trail).map_err(|refused| format!("{refused:?}"));
    let then = good(first_lines(trail, n))?;
    if payloads.len() != changes(&then.tables, &now.tables) {
        return Err(format!("{} payloads", payloads.len()));
    }
    order(&payloads)?;
    carry_out(&payloads, now.tables.clone(), &then.tables)?;
    let night = post::newer(trail)?;
    let mut again = vec![0; room.len()];
    if undo(&night, n, &mut again) != Ok(room.len()) || again != room {
        return Err("the trail as it is written now has another list".to_string());
    }
    let longer = lines_behind(&night, &payloads);
    replays(&good(&longer)?, &now, payloads.len(), &then.tables)?;
    // Then the tables are those of the first n lines, and nothing leads back.
    match undo(&longer, n, &mut []) {
        Ok(0) => {}
        other => return Err(format!("the way back after the way back is {other:?}")),
    }
    let payloads = payloads.len();
    Ok(Ok(Checked {
        list: room,
        payloads,
        then: then.tables,
    }))
}

pub fn same(a: &Tables, b: &Tables) -> bool {
    a.flows == b.flows && a.groups == b.groups
}

/// Each payload completes OK, and the tables of then stand at the end.
fn carry_out(payloads: &[&[u8]], mut tables: Tables, then: &Tables) -> Result<(), String> {
    for (k, payload) in payloads.iter().enumerate() {
        let status = tables.obey(payload);
        if status != Status::Ok {
            return Err(format!("payload {} completes with {status:?}", k + 1));
        }
    }
    match same(&tables, then) {
        true => Ok(()),
        false => Err("the tables are not those of then".to_string()),
    }
}

/// The trail with the list's lines behind it.
fn lines_behind(trail: &[u8], payloads: &[&[u8]]) -> Vec<u8> {
    let lines = (0u16..).zip(payloads);
    let lines: Vec<u8> = lines
        .flat_map(|(slot, payload)| line(Status::Ok.stamp(), slot, payload))
        .collect();
    [trail, &lines].concat()
}

/// The longer trail replays: so many more lines, all charged, and the tables of then.
fn replays(longer: &Replayed, now: &Replayed, more: usize, then: &Tables) -> Result<(), String> {
    let more = more as u64;
    if (longer.lines, longer.charged) != (now.lines + more, now.charged + more) {
        return Err("the list's lines are not all charged".to_string());
    }
    match same(&longer.tables, then) {
        true => Ok(()),
        false => Err("the longer trail does not lead to the tables of then".to_string()),
    }
}

/// How many entries stand in one only, or differ.
fn changes(then: &Tables, now: &Tables) -> usize {
    let only_now = now
        .flows
        .keys()
        .filter(|key| !then.flows.contains_key(key))
        .count()
        + now
            .groups
            .keys()
            .filter(|key| !then.groups.contains_key(key))
            .count();
    let others = then
        .flows
        .iter()
        .filter(|(key, flow)| now.flows.get(key) != Some(flow))
        .count()
        + then
            .groups
            .iter()
            .filter(|(key, group)| now.groups.get(key) != Some(group))
            .count();
    only_now + others
}

/// Runs and keys rise: no entry is met twice, and each stands where it should. Each payload has its form.
fn order(payloads: &[&[u8]]) -> Result<(), String> {
    let mut last = None;
    for payload in payloads {
        let place = place(payload).ok_or("a payload is no command")?;
        if last.is_some_and(|last| last >= place) {
            return Err(format!("{place:?} stands behind {last:?}"));
        }
        if !has_form(payload) {
            return Err(format!("{place:?} has another form"));
        }
        last = Some(place);
    }
    Ok(())
}

/// The fields that each form has, in rising type, and nothing but zeros between them.
fn has_form(payload: &[u8]) -> bool {
    let top = split(payload, Version::DEVICE, Place::Top);
    let Some([code, info]) = top.and_then(|top| <[Tlv; 2]>::try_from(top).ok()) else {
        return false;
    };
    let Some(fields) = split(info.value, Version::DEVICE, Place::Info) else {
        return false;
    };
    let kinds: Vec<u32> = fields.iter().map(|tlv| tlv.kind).collect();
    let first = |kind: u32| {
        let tlv = fields.iter().find(|tlv| tlv.kind == kind);
        tlv.map_or(&[][..], |tlv| tlv.value)
    };
    let mut expected: Vec<u32> = match (code.value, first(field::TBL), first(field::GROUP_ID)) {
        ([5, 0], ..) => vec![5],
        ([9, 0], ..) => vec![10],
        ([3 | 4, 0], [0, 0], _) => vec![1, 2, 3, 4, 5, 6, 7, 9],
        ([3 | 4, 0], [10, 0], _) if first(field::VLAN_ID) == [0, 0] => {
            vec![1, 2, 3, 4, 5, 6, 9, 14, 19]
        }
        ([3 | 4, 0], [10, 0], _) => vec![1, 2, 3, 4, 5, 6, 9, 14],
        ([3 | 4, 0], [20, 0], _) => vec![1, 2, 3, 4, 5, 6, 9, 14, 23, 24],
        ([3 | 4, 0], [30, 0], _) if first(field::ETHERTYPE) == [0x08, 0x00] => {
            vec![1, 2, 3, 4, 5, 9, 23, 36, 37]
        }
        ([3 | 4, 0], [30, 0], _) => vec![1, 2, 3, 4, 5, 9, 23, 38, 39],
        ([3 | 4, 0], [50, 0], _) => vec![1, 2, 3, 4, 5, 9, 14],
        ([7 | 8, 0], _, [.., 0x00..=0x0f]) => vec![8, 10, 43],
        ([7 | 8, 0], _, [.., 0x20..=0x2f]) => vec![10, 11, 14, 24, 26],
        ([7 | 8, 0], ..) => vec![10, 12, 13],
        _ => return false,
    };
    let optional: &[u32] = match first(field::TBL) {
        [30, 0] => &[field::GROUP_ID],
        [50, 0] => &[field::GROUP_ID, field::DST_MAC],
        _ => &[],
    };
    expected.extend(optional.iter().filter(|kind| kinds.contains(kind)));
    expected.sort();
    kinds == expected
        && zeros_between(payload, Place::Top)
        && zeros_between(info.value, Place::Info)
        && zeros_between(first(field::GROUP_IDS), Place::Members)
}

/// Whether pads and fill of a well formed region are 0.
fn zeros_between(region: &[u8], place: Place) -> bool {
    let mut again = Vec::new();
    for tlv in split(region, Version::DEVICE, place).unwrap_or_default() {
        again.extend(tlv.kind.to_le_bytes());
        again.extend((tlv.value.len() as u32 + 8).to_le_bytes());
        again.extend(tlv.value);
        again.resize(again.len().next_multiple_of(8), 0);
    }
    again == region
}

/// The run, from 0 to 5, and the key of a payload.
fn place(payload: &[u8]) -> Option<(usize, u64)> {
    let top = split(payload, Version::DEVICE, Place::Top)?;
    let info = split(top.get(1)?.value, Version::DEVICE, Place::Info)?;
    let code = u16::from(*top[0].value.first()?);
    let run = [5, 9, 4, 8, 3, 7].iter().position(|known| *known == code)?;
    let kind = if code < 6 {
        field::COOKIE
    } else {
        field::GROUP_ID
    };
    let key = info.iter().find(|tlv| tlv.kind == kind)?.value;
    Some((
        run,
        key.iter()
            .rev()
            .fold(0, |n, byte| n << 8 | u64::from(*byte)),
    ))
}

/// The same by the console: the night's script, the list behind it, and the trail of both.
pub fn by_console(trail: &[u8], n: u64) -> Result<(), String> {
    let script = post::script(trail)?;
    let night = post::trail(script.as_bytes());
    let mut room = vec![0; LONGEST_LIST];
    let length = undo(&night, n, &mut room).map_err(|refusal| refusal.to_string())?;
    let payloads = post::payloads(&room[..length]).ok_or("the list is cut")?;
    let longer = post::trail(&post::behind(script.as_bytes(), &payloads));
    let good = |trail: &[u8]| replay(trail).map_err(|refused| format!("{refused:?}"));
    let then = good(first_lines(trail, n))?;
    replays(&good(&longer)?, &good(trail)?, payloads.len(), &then.tables)
}

/// One room: the outcome, and each byte of the room.
fn room(trail: &[u8], n: u64, size: usize, known: Result<&[u8], Refusal>) -> Result<(), String> {
    let before: Vec<u8> = (0..size).map(|at| at as u8 | 1).collect();
    let mut after = before.clone();
    let told = undo(trail, n, &mut after);
    let expected = known.and_then(|list| match size < list.len() {
        true => Err(Refusal::Room),
        false => Ok(list.len()),
    });
    let written = told.unwrap_or(0);
    let kept = after[written..] == before[written..];
    let right = known.is_err() || written == 0 || known.is_ok_and(|list| after[..written] == *list);
    match told == expected && kept && right {
        true => Ok(()),
        false => Err(format!("room {size}: {told:?}, not {expected:?}")),
    }
}

/// The list's length as the room, one byte less, none, and some more.
pub fn rooms(length: usize) -> Vec<usize> {
    let mut rooms = vec![0, length.saturating_sub(1), length, length + 9];
    rooms.dedup();
    rooms
}

/// What a stress run met.
pub type Met = BTreeMap<&'static str, u64>;

/// So many generated trails with their asks, from a seed on. The first failure ends it.
pub fn stress(seed: u64, count: u64) -> Result<Met, String> {
    let mut met = Met::new();
    for seed in (0..count).map(|k| seed.wrapping_add(k)) {
        one(seed, &mut met).map_err(|failure| format!("seed {seed}: {failure}"))?;
    }
    Ok(met)
}

/// Every one of so many trails is run by the console as well.
const CONSOLE: u64 = 16;

fn one(seed: u64, met: &mut Met) -> Result<(), String> {
    let Evening { trail, .. } = &generate::evening(seed);
    let numbers = generate::evening(seed).numbers();
    let now = replay(trail).map(|done| done.tables);
    let with_rooms = seed as usize / 16 % numbers.len();
    *met.entry("trails").or_default() += 1;
    *met.entry(match journal::version(trail) {
        Some(Version::One) => "trails of version 1",
        Some(Version::Two) => "trails of version 2",
        Some(Version::Three) => "trails of version 3",
        None => "trails of no known version",
    })
    .or_default() += 1;
    for (k, n) in numbers.into_iter().enumerate() {
        let failed = |failure| format!("n {n}: {failure}");
        let checked = check(trail, n).map_err(failed)?;
        count(met, &checked, now.as_ref().ok());
        if checked.is_ok() && seed.is_multiple_of(CONSOLE) {
            by_console(trail, n).map_err(failed)?;
            *met.entry("by the console").or_default() += 1;
        }
        let known = checked.as_ref().map(|checked| &checked.list[..]);
        let known = known.map_err(|refusal| *refusal);
        for size in rooms(known.map_or(40, <[u8]>::len)) {
            if k == with_rooms {
                room(trail, n, size, known).map_err(failed)?;
                *met.entry("rooms").or_default() += 1;
            }
        }
    }
    Ok(())
}

fn count(met: &mut Met, checked: &Result<Checked, Refusal>, now: Option<&Tables>) {
    let mut add = |what, more| *met.entry(what).or_default() += more;
    add("numbers", 1);
    match (checked, now) {
        (Ok(checked), Some(now)) => {
            add("payloads", checked.payloads as u64);
            add("bytes", checked.list.len() as u64);
            for (what, times) in generate::met(&checked.then, now) {
                add(what, times);
            }
        }
        (Ok(_), None) => {}
        (Err(refusal), _) => add(REFUSED[refusal.number() as usize - 10], 1),
    }
}

const REFUSED: [&str; 7] = [
    "refused 10",
    "refused 11",
    "refused 12",
    "refused 13",
    "refused 14",
    "refused 15",
    "refused 16",
];
