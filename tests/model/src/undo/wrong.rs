//! What the misreadings of `undo` do instead. Nothing here does anything unless one is chosen.

use super::misread::{chosen, misread, Label as L};
use super::{
    entries, first_lines, line_at, list as right_list, payloads as right_payloads, Action, Entries,
    Fields, Key, Refusal, Step,
};
use crate::journal::{self, replay, HEADER, LINE};
use crate::recount::{nest, recount};
use crate::tables::{field, id_type, Status, Tables};
use crate::tlv::{split, Place, Version};
use std::borrow::Cow;
use std::collections::BTreeSet;

/// Refusals in another order.
pub fn early(trail: &[u8], n: u64, room: &[u8]) -> Result<(), Refusal> {
    if chosen().is_none() {
        return Ok(());
    }
    match replay(trail) {
        _ if misread(L::UndoCountBeforeTrail) && n > whole_lines(trail).len() as u64 => {
            Err(Refusal::Count)
        }
        Err(_) if misread(L::UndoRoomBeforeTrail) && room.is_empty() => Err(Refusal::Room),
        // The longest way back there is, as n has none.
        Ok(now) if misread(L::UndoRoomBeforeCount) && n > now.lines => {
            match room.len() < right_list(&right_payloads(trail, 0)?).len() {
                true => Err(Refusal::Room),
                false => Ok(()),
            }
        }
        _ => Ok(()),
    }
}

fn whole_lines(trail: &[u8]) -> Vec<&[u8]> {
    let (mut lines, mut at) = (Vec::new(), HEADER);
    while let Some(line) = line_at(trail, at) {
        lines.push(line);
        at += line.len();
    }
    lines
}

pub fn refused(room: &mut [u8]) {
    if misread(L::UndoRefusedZeroes) {
        room.fill(0);
    }
}

/// How long the room has to be.
pub fn needed(room: usize, payloads: &[Vec<u8>], length: usize) -> usize {
    match () {
        _ if misread(L::UndoRoomLonger) => length + 1,
        _ if misread(L::UndoRoomWithoutLengths) => payloads.iter().map(Vec::len).sum(),
        _ if misread(L::UndoRoomEmptyRefused) && room == 0 => 1,
        _ if misread(L::UndoRoomOneShortTaken) => length.saturating_sub(1),
        _ => length,
    }
}

pub fn too_short(payloads: &[Vec<u8>], room: &mut [u8]) {
    let mut at = 0;
    for payload in payloads {
        let bytes = right_list(std::slice::from_ref(payload));
        let fits = bytes.len().min(room.len() - at);
        if misread(L::UndoRoomPartWritten)
            || misread(L::UndoRoomWholePayloads) && fits == bytes.len()
        {
            room[at..at + fits].copy_from_slice(&bytes[..fits]);
            at += fits;
        }
    }
    refused(room);
}

/// The room after the list is written, and what is told of it.
pub fn result(payloads: &[Vec<u8>], room: &mut [u8], length: usize) -> usize {
    match () {
        _ if misread(L::UndoRestZeroed) => room[length..].fill(0),
        _ if misread(L::UndoAtRoomEnd) => room.rotate_right(room.len() - length),
        _ if misread(L::UndoResultPayloads) => return payloads.len(),
        _ if misread(L::UndoResultWithoutLengths) => return payloads.iter().map(Vec::len).sum(),
        _ => {}
    }
    length
}

/// A trail whose version is taken for another one.
pub fn version(trail: &[u8]) -> Cow<'_, [u8]> {
    let Some([low, high]) = trail.get(3..5) else {
        return trail.into();
    };
    let other = match u16::from_le_bytes([*low, *high]) {
        1 if misread(L::UndoVersion1New) => 2,
        1 if misread(L::UndoVersion1Refused) => 0,
        2 if misread(L::UndoVersion2Old) => 1,
        2 if misread(L::UndoVersion2Refused) => 0,
        2 if misread(L::UndoVersion2As3) => 3,
        3 if misread(L::UndoVersion3Refused) => 0,
        3 if misread(L::UndoVersion3As2) => 2,
        4 if misread(L::UndoVersion4) => 3,
        version if misread(L::UndoVersionLow) => version & 0xff,
        _ => return trail.into(),
    };
    let mut trail = trail.to_vec();
    trail[3..5].copy_from_slice(&u16::to_le_bytes(other));
    trail.into()
}

/// Whether a good trail is refused for its version.
pub fn too_old(trail: &[u8]) -> bool {
    misread(L::UndoVersion1Is15) && journal::version(trail) == Some(Version::One)
        || misread(L::UndoVersion2Is15) && journal::version(trail) == Some(Version::Two)
}

/// The part of a trail that is looked at.
pub fn looked_at(trail: &[u8], n: u64) -> &[u8] {
    if !misread(L::UndoFaultsAfterN) {
        return trail;
    }
    match replay(trail) {
        Err(refused) if refused.line > n => first_lines(trail, refused.line - 1),
        _ => trail,
    }
}

/// n in another sense; the greatest number where it is refused.
pub fn number(trail: &[u8], count: u64, n: u64) -> u64 {
    let counted = |counts: &dyn Fn(&[u8]) -> bool| {
        let lines = whole_lines(trail);
        let places = (0..=lines.len())
            .find(|k| lines[..*k].iter().filter(|line| counts(line)).count() as u64 == n);
        places.map_or(u64::MAX, |k| k as u64)
    };
    match n {
        _ if misread(L::UndoNBy16Bits) => n & 0xffff,
        _ if misread(L::UndoNBy32Bits) => n & 0xffff_ffff,
        _ if misread(L::UndoNSigned) && n >> 63 == 1 => 0,
        1.. if misread(L::UndoNBeforeLine) && n <= count => n - 1,
        _ if misread(L::UndoNFrom0) && n < count => n + 1,
        _ if misread(L::UndoNFromEnd) && n <= count => count - n,
        _ if misread(L::UndoNCountsOk) => counted(&|line| line[..2] == [0, 0x80]),
        _ if misread(L::UndoNCountsPayloads) => counted(&|line| line.len() > LINE),
        0 if misread(L::UndoNoLinesIsNow) => count,
        0 if misread(L::UndoNoLinesRefused) => u64::MAX,
        _ if misread(L::UndoLastRefused) && n == count => u64::MAX,
        _ if misread(L::UndoAboveTaken) => n.min(count),
        _ if misread(L::UndoOneAboveTaken) && n == count + 1 => count,
        _ => n,
    }
}

/// Other steps, or the same in another order.
pub fn steps(steps: &mut Vec<Step>, trail: &[u8], n: u64, then: &Tables, now: &Tables) {
    if chosen().is_none() {
        return;
    }
    let empty = Tables::empty(now.ports);
    let (then_entries, now_entries) = (entries(then), entries(now));
    match () {
        _ if misread(L::UndoForward) => *steps = super::steps(&now_entries, &then_entries),
        _ if misread(L::UndoFromEmpty) => {
            *steps = super::steps(&then_entries, &entries(&empty));
        }
        _ if misread(L::UndoEverything) => {
            *steps = super::steps(&entries(&empty), &now_entries);
            steps.extend(super::steps(&then_entries, &entries(&empty)));
        }
        _ => {}
    }
    more_steps(steps, trail, n, &then_entries, &now_entries);
    steps.retain(|step| !is_left_out(step, &now_entries));
    *steps = steps
        .drain(..)
        .flat_map(|step| instead(step, &now_entries))
        .collect();
    steps.sort_by_key(|step| place(step, then, now));
}

/// Steps for entries that do not differ.
fn more_steps(steps: &mut Vec<Step>, trail: &[u8], n: u64, then: &Entries, now: &Entries) {
    let touched = match () {
        _ if misread(L::UndoWayBackMod) || misread(L::UndoComeAndGone) => touched(trail, n),
        _ => BTreeSet::new(),
    };
    for (key, fields) in then {
        let same = now.get(key) == Some(fields);
        if same
            && (misread(L::UndoModUnchanged) || misread(L::UndoWayBackMod) && touched.contains(key))
        {
            steps.push(Step {
                action: Action::Mod,
                key: *key,
                fields: fields.clone(),
            });
        }
    }
    let gone = |key: &&Key| !then.contains_key(key) && !now.contains_key(key);
    if misread(L::UndoComeAndGone) {
        steps.extend(touched.iter().filter(gone).map(|key| Step {
            action: Action::Del,
            key: *key,
            fields: key_fields(*key),
        }));
    }
}

fn key_fields(key: Key) -> Fields {
    match key {
        Key::Flow(cookie) => vec![(field::COOKIE, cookie.to_le_bytes().to_vec())],
        Key::Group(id) => vec![(field::GROUP_ID, id.to_le_bytes().to_vec())],
    }
}

/// The entries that a line after the first n changed.
fn touched(trail: &[u8], n: u64) -> BTreeSet<Key> {
    let mut keys = BTreeSet::new();
    let mut tables = match replay(first_lines(trail, n)) {
        Ok(done) => done.tables,
        Err(_) => return keys,
    };
    for line in whole_lines(trail).into_iter().skip(n as usize) {
        let before = tables.clone();
        if line[..2] == Status::Ok.stamp().to_le_bytes() {
            tables.execute(
                &line[LINE..],
                journal::version(trail).unwrap_or(Version::DEVICE),
            );
        }
        let flows = before.flows.keys().chain(tables.flows.keys());
        let flows = flows.filter(|key| before.flows.get(key) != tables.flows.get(key));
        keys.extend(flows.map(|cookie| Key::Flow(*cookie)));
        let groups = before.groups.keys().chain(tables.groups.keys());
        let groups = groups.filter(|key| before.groups.get(key) != tables.groups.get(key));
        keys.extend(groups.map(|id| Key::Group(*id)));
    }
    keys
}

fn value(fields: &Fields, kind: u32) -> Option<&Vec<u8>> {
    fields
        .iter()
        .find(|(other, _)| *other == kind)
        .map(|(_, value)| value)
}

/// Whether a step is not taken at all.
fn is_left_out(step: &Step, now: &Entries) -> bool {
    let is_flow = matches!(step.key, Key::Flow(_));
    let is_type_2 = matches!(step.key, Key::Group(id) if id_type(id) == 2);
    let table = value(&step.fields, field::TBL).map(|table| table[0]);
    match step.action {
        _ if misread(L::UndoRoutesLeftOut) && matches!(table, Some(20 | 30)) => true,
        _ if misread(L::UndoType2LeftOut) && is_type_2 => true,
        _ if misread(L::UndoFlowsLeftOut) => is_flow,
        _ if misread(L::UndoGroupsLeftOut) => !is_flow,
        Action::Del => misread(L::UndoDelsLeftOut),
        Action::Add => misread(L::UndoAddsLeftOut),
        Action::Mod if misread(L::UndoModsLeftOut) => true,
        Action::Mod => match now.get(&step.key) {
            Some(other) => !seen_to_differ(&step.fields, other),
            None => false,
        },
    }
}

/// Whether two entries that differ, or are the same, get a mod.
fn seen_to_differ(fields: &Fields, other: &Fields) -> bool {
    let kinds =
        |fields: &Fields| -> BTreeSet<u32> { fields.iter().map(|(kind, _)| *kind).collect() };
    let all: BTreeSet<u32> = &kinds(fields) | &kinds(other);
    let differing = |kind: &&u32| value(fields, **kind) != value(other, **kind);
    let differ: Vec<u32> = all.iter().filter(differing).copied().collect();
    let sorted = |fields: &Fields| {
        let mut members = member_ids(fields);
        members.sort();
        members
    };
    match chosen() {
        Some(L::Ignored(kind)) => differ != [kind],
        Some(L::UndoBitsOutsideIgnored) => {
            masked(fields) != masked(other)
                || !matches!(differ[..], [field::DST_IP | field::DST_IPV6])
        }
        Some(L::UndoTimesIgnored) => differ
            .iter()
            .any(|kind| ![field::HARDTIME, field::IDLETIME].contains(kind)),
        Some(L::UndoMembersAsSet) => {
            differ != [field::GROUP_IDS] || sorted(fields) != sorted(other)
        }
        Some(L::UndoPresenceIgnored) => {
            let both = &kinds(fields) & &kinds(other);
            differ.iter().any(|kind| both.contains(kind))
        }
        _ => true,
    }
}

/// The same fields, an address under its mask.
fn masked(fields: &Fields) -> Fields {
    let mut out = fields.clone();
    for (kind, bytes) in &mut out {
        if let (field::DST_IP | field::DST_IPV6, Some(mask)) = (*kind, value(fields, *kind + 1)) {
            bytes
                .iter_mut()
                .zip(mask)
                .for_each(|(byte, mask)| *byte &= mask);
        }
    }
    out
}

fn member_ids(fields: &Fields) -> Vec<u32> {
    let nest = value(fields, field::GROUP_IDS);
    nest.map_or(Vec::new(), |nest| {
        nest.chunks_exact(16)
            .map(|tlv| u32::from_le_bytes([tlv[8], tlv[9], tlv[10], tlv[11]]))
            .collect()
    })
}

/// What stands for one step.
fn instead(step: Step, now: &Entries) -> Vec<Step> {
    let other = now.get(&step.key);
    let table_changed =
        other.is_some_and(|other| value(other, field::TBL) != value(&step.fields, field::TBL));
    let with = |action, fields: &Fields| Step {
        action,
        key: step.key,
        fields: fields.clone(),
    };
    match (step.action, other) {
        (Action::Mod, Some(other))
            if misread(L::UndoModIsDelAdd) || misread(L::UndoTableIsDelAdd) && table_changed =>
        {
            vec![with(Action::Del, other), with(Action::Add, &step.fields)]
        }
        (Action::Mod, Some(other)) if misread(L::UndoModOfNow) => vec![with(Action::Mod, other)],
        (Action::Mod, Some(other)) => {
            let mut fields = step.fields.clone();
            fields.retain(|(kind, new)| {
                let same = value(other, *kind) == Some(new);
                let needed = [field::TBL, field::PRIORITY].contains(kind)
                    || key_fields(step.key)[0].0 == *kind;
                let is_time = [field::HARDTIME, field::IDLETIME].contains(kind);
                !(misread(L::UndoModDiffering) && same && !needed
                    || misread(L::UndoModWithoutTimes) && same && is_time)
            });
            vec![with(Action::Mod, &fields)]
        }
        _ => vec![step],
    }
}

/// Where a step stands: its run, and its place there.
fn place(step: &Step, then: &Tables, now: &Tables) -> (u8, i128) {
    let action = match step.action {
        Action::Del => 0,
        Action::Mod => 1,
        Action::Add => 2,
    };
    let group = match step.key {
        Key::Flow(_) => 0,
        Key::Group(_) => 1,
    };
    let run = match () {
        _ if misread(L::UndoAddsFirst) => 2 * [1, 2, 0][usize::from(action)] + group,
        _ if misread(L::UndoModsFirst) => 2 * [1, 0, 2][usize::from(action)] + group,
        _ if misread(L::UndoAddsBeforeMods) => 2 * [0, 2, 1][usize::from(action)] + group,
        _ if misread(L::UndoGroupsFirst) => 2 * action + 1 - group,
        _ if misread(L::UndoGroupsAddedFirst) && action == 2 => 2 * action + 1 - group,
        _ if misread(L::UndoAllFlowsFirst) => 3 * group + action,
        _ if misread(L::UndoOneRun) => group,
        _ => 2 * action + group,
    };
    let added = if action == 0 { &now.added } else { &then.added };
    (run, rank(step, added))
}

fn rank(step: &Step, added: &[u64]) -> i128 {
    let number = |kind| {
        let bytes = value(&step.fields, kind).map_or(&[][..], |value| &value[..]);
        bytes
            .iter()
            .rev()
            .fold(0, |n, byte| n << 8 | i128::from(*byte))
    };
    match step.key {
        Key::Flow(cookie) => {
            let rising = i128::from(cookie);
            match () {
                _ if misread(L::UndoKeysFall) || misread(L::UndoCookiesFall) => -rising,
                _ if misread(L::UndoDelsFall) && step.action == Action::Del => -rising,
                _ if misread(L::UndoCookiesSigned) => i128::from(cookie as i64),
                _ if misread(L::UndoCookiesBy32Bits) => rising & 0xffff_ffff,
                _ if misread(L::UndoCookiesByBytes) => i128::from(cookie.swap_bytes()),
                _ if misread(L::UndoCookiesByTable) => number(field::TBL) << 64 | rising,
                _ if misread(L::UndoCookiesByPriority) => number(field::PRIORITY) << 64 | rising,
                _ if misread(L::UndoCookiesByPrefix) => {
                    let masks = [field::DST_IP_MASK, field::DST_IPV6_MASK];
                    let mask = masks.iter().find_map(|kind| value(&step.fields, *kind));
                    let ones = |mask: &Vec<u8>| mask.iter().map(|byte| byte.count_ones()).sum();
                    let length: u32 = mask.map_or(0, ones);
                    i128::from(200 - length) << 64 | rising
                }
                _ if misread(L::UndoCookiesAsAdded) => {
                    let place = added.iter().position(|other| *other == cookie);
                    place.unwrap_or_default() as i128
                }
                _ => rising,
            }
        }
        Key::Group(id) => match () {
            _ if misread(L::UndoKeysFall) || misread(L::UndoIdsFall) => -i128::from(id),
            _ if misread(L::UndoDelsFall) && step.action == Action::Del => -i128::from(id),
            _ if misread(L::UndoIdsByVlan) => i128::from(id.rotate_left(4)),
            _ if misread(L::UndoIdsByBytes) => i128::from(id.swap_bytes()),
            _ if misread(L::UndoType2Last) && id_type(id) == 2 => i128::from(id) << 32,
            _ if misread(L::UndoType2First) && id_type(id) == 2 => i128::from(id) - (1 << 40),
            _ => i128::from(id),
        },
    }
}

/// Other fields, or the same in another order.
pub fn fields(step: &Step, fields: &mut Fields) {
    let is_flow = matches!(step.key, Key::Flow(_));
    if step.action == Action::Del {
        if misread(L::UndoDelAllFields) {
            *fields = step.fields.clone();
        }
        if let (true, Some(table)) = (is_flow, value(&step.fields, field::TBL)) {
            if misread(L::UndoDelHasTable) {
                fields.insert(0, (field::TBL, table.clone()));
            }
        }
    } else {
        more_fields(step.key, fields);
        if misread(L::UndoAddressMasked) {
            *fields = masked(fields);
        }
    }
    let is_put = step.action != Action::Del;
    match chosen() {
        Some(L::LeftOut(kind)) if is_put => fields.retain(|(other, _)| *other != kind),
        Some(L::ZeroLeftOut(kind)) => {
            fields.retain(|(other, value)| *other != kind || value.iter().any(|byte| *byte != 0))
        }
        Some(L::UndoTimesLeftOut) => {
            fields.retain(|(kind, _)| ![field::HARDTIME, field::IDLETIME].contains(kind));
        }
        _ => {}
    }
    for (kind, value) in fields.iter_mut() {
        other_value(*kind, value);
    }
    if misread(L::UndoMacsSwapped) && value(fields, field::SRC_MAC).is_some() {
        for (kind, _) in fields.iter_mut() {
            match *kind {
                field::SRC_MAC => *kind = field::DST_MAC,
                field::DST_MAC => *kind = field::SRC_MAC,
                _ => {}
            }
        }
        fields.sort_by_key(|(kind, _)| *kind);
    }
    order(step.key, fields);
}

/// Fields that an entry does not have.
fn more_fields(key: Key, fields: &mut Fields) {
    let table = value(fields, field::TBL).map(|table| table[0]);
    let list = matches!(key, Key::Group(id) if id_type(id) > 2);
    let type_0 = matches!(key, Key::Group(id) if id_type(id) == 0);
    let type_2 = matches!(key, Key::Group(id) if id_type(id) == 2);
    let other_pair = match value(fields, field::DST_IP) {
        Some(_) => [
            (field::DST_IPV6, vec![0; 16]),
            (field::DST_IPV6_MASK, vec![0; 16]),
        ],
        None => [
            (field::DST_IP, vec![0; 4]),
            (field::DST_IP_MASK, vec![0; 4]),
        ],
    };
    if table == Some(30) && misread(L::UndoBothPairs) {
        fields.extend(other_pair);
        fields.sort_by_key(|(kind, _)| *kind);
    }
    let low = match key {
        Key::Group(id) => u32::from(id as u16),
        Key::Flow(_) => 0,
    };
    let more: Option<(u32, Vec<u8>)> = match table {
        Some(10) if misread(L::UndoNewVlanAlways) => Some((field::NEW_VLAN_ID, vec![0; 2])),
        Some(10) if misread(L::UndoMaskForTable10) => Some((field::IN_PPORT_MASK, vec![0xff; 4])),
        Some(20) if misread(L::UndoMaskForTable20) => Some((field::IN_PPORT_MASK, vec![0xff; 4])),
        Some(30) if misread(L::UndoRouteGroupAlways) => Some((field::GROUP_ID, vec![0; 4])),
        Some(50) if misread(L::UndoEtherTypeForTable50) => Some((field::ETHERTYPE, vec![0; 2])),
        Some(50) if misread(L::UndoMacAlways) => Some((field::DST_MAC, vec![0; 6])),
        Some(50) if misread(L::UndoGroupAlways) => Some((field::GROUP_ID, vec![0; 4])),
        None if list && misread(L::UndoOutPportForLists) => {
            Some((field::OUT_PPORT, low.to_le_bytes().to_vec()))
        }
        None if list && misread(L::UndoPopForLists) => Some((field::POP_VLAN, vec![0])),
        None if type_2 && misread(L::UndoOutPportForType2) => {
            Some((field::OUT_PPORT, low.to_le_bytes().to_vec()))
        }
        None if type_2 && misread(L::UndoPopForType2) => Some((field::POP_VLAN, vec![0])),
        None if type_0 && misread(L::UndoCountForType0) => Some((field::GROUP_COUNT, vec![0; 2])),
        _ => None,
    };
    if let Some((kind, zero)) = more {
        if value(fields, kind).is_none() {
            fields.push((kind, zero));
            fields.sort_by_key(|(kind, _)| *kind);
        }
    }
}

fn other_value(kind: u32, value: &mut Vec<u8>) {
    match chosen() {
        Some(L::Reversed(reversed)) if reversed == kind => value.reverse(),
        Some(L::UndoOutPport2Bytes) if kind == field::OUT_PPORT => value.truncate(2),
        Some(L::UndoMaskAsLength) if [field::DST_IP_MASK, field::DST_IPV6_MASK].contains(&kind) => {
            let ones: u32 = value.iter().map(|byte| byte.count_ones()).sum();
            *value = vec![ones as u8];
        }
        Some(L::UndoMembersRising) if kind == field::GROUP_IDS => {
            let mut ids: Vec<u32> = member_ids(&vec![(kind, value.clone())]);
            ids.sort();
            for (tlv, id) in value.chunks_exact_mut(16).zip(ids) {
                tlv[8..12].copy_from_slice(&id.to_le_bytes());
            }
        }
        Some(L::UndoMembersFrom0) if kind == field::GROUP_IDS => {
            value.chunks_exact_mut(16).for_each(|tlv| tlv[0] -= 1);
        }
        Some(L::UndoMembersBigEndian) if kind == field::GROUP_IDS => {
            value
                .chunks_exact_mut(16)
                .for_each(|tlv| tlv[8..12].reverse());
        }
        _ => {}
    }
}

fn order(key: Key, fields: &mut Fields) {
    let key = key_fields(key)[0].0;
    // As the build description names them.
    let told = [
        field::TBL,
        field::PRIORITY,
        field::COOKIE,
        field::HARDTIME,
        field::IDLETIME,
        field::IN_PPORT,
        field::IN_PPORT_MASK,
        field::VLAN_ID,
        field::DST_MAC,
        field::GOTO_TBL,
        field::NEW_VLAN_ID,
        field::GROUP_ID,
        field::OUT_PPORT,
        field::GROUP_COUNT,
        field::GROUP_IDS,
        field::POP_VLAN,
        field::GROUP_ID_LOWER,
        field::ETHERTYPE,
        field::SRC_MAC,
        field::DST_IP,
        field::DST_IP_MASK,
        field::DST_IPV6,
        field::DST_IPV6_MASK,
    ];
    match chosen() {
        Some(L::UndoTypesFall) => fields.reverse(),
        Some(L::UndoKeyFirst) => fields.sort_by_key(|(kind, _)| *kind != key),
        Some(L::UndoAsListed) => {
            fields.sort_by_key(|(kind, _)| told.iter().position(|other| other == kind));
        }
        _ => {}
    }
}

/// Another top: other codes, or CMD_TYPE and CMD_INFO in another form.
pub fn top(step: &Step, top: &mut Fields) {
    match () {
        _ if misread(L::UndoModIsAdd) && step.action == Action::Mod => top[0].1[0] -= 1,
        _ if misread(L::UndoCmdTypeBigEndian) => top[0].1.reverse(),
        _ if misread(L::UndoInfoFirst) => top.reverse(),
        _ if misread(L::UndoInfoUnfilled) => {
            let last = last_fill(&top[1].1);
            let length = top[1].1.len() - last;
            top[1].1.truncate(length);
        }
        _ => {}
    }
}

/// The fill behind the last TLV of a region.
fn last_fill(region: &[u8]) -> usize {
    let tlvs = split(region, Version::DEVICE, Place::Info).unwrap_or_default();
    tlvs.last().map_or(0, |tlv| {
        tlv.value.len().next_multiple_of(8) - tlv.value.len()
    })
}

/// The TLV that begins at `start`, in another form.
pub fn tlv(out: &mut Vec<u8>, start: usize, length: usize) {
    let end = start + 8 + length;
    let filled = out.len() - start - 8;
    let mut told =
        |length: usize| out[start + 4..start + 6].copy_from_slice(&(length as u16).to_le_bytes());
    match () {
        _ if misread(L::UndoTlvLengthFilled) => told(filled + 8),
        _ if misread(L::UndoFillMissing) => out.truncate(end),
        _ if misread(L::UndoFillTo4) => out.truncate(end.next_multiple_of(4)),
        _ if misread(L::UndoFillOnes) => out[end..].fill(0xff),
        _ if misread(L::UndoPadOnes) => out[start + 6..start + 8].fill(0xff),
        _ if misread(L::UndoPadIsFill) => out[start + 6] = (filled - length) as u8,
        _ => {}
    }
}

/// Lengths that do not count the header: in some regions, or in all.
pub fn payloads(payloads: &mut [Vec<u8>], trail: &[u8]) {
    let version_1 = journal::version(trail) == Some(Version::One);
    let old = |place: Place, kind: u32| match chosen() {
        Some(L::UndoTlvLengthOfValue) => true,
        Some(L::UndoTlvLengthOfTrail) => version_1,
        Some(L::UndoTopOld) => place == Place::Top,
        Some(L::UndoInfoOld) => place == Place::Info,
        Some(L::UndoMembersOld) => place == Place::Members,
        Some(L::UndoNestOld) => nest(place, kind).is_some(),
        _ => false,
    };
    if chosen().is_some_and(|label| OLD.contains(&label)) {
        for payload in payloads {
            recount(payload, Place::Top, Version::DEVICE, &old);
        }
    }
}

const OLD: [L; 6] = [
    L::UndoTlvLengthOfValue,
    L::UndoTlvLengthOfTrail,
    L::UndoTopOld,
    L::UndoInfoOld,
    L::UndoMembersOld,
    L::UndoNestOld,
];

/// The list in another form.
pub fn list(payloads: &[Vec<u8>]) -> Option<Vec<u8>> {
    let lengths = payloads.iter().map(|payload| payload.len() as u16);
    let each = |one: &dyn Fn(&Vec<u8>, u16) -> Vec<u8>| {
        let parts = payloads.iter().zip(lengths.clone());
        Some(
            parts
                .flat_map(|(payload, length)| one(payload, length))
                .collect(),
        )
    };
    let behind = |length: &[u8], payload: &[u8]| [length, payload].concat();
    match chosen()? {
        L::UndoLengthTakesHead => each(&|p, n| behind(&(n + 8).to_le_bytes(), p)),
        L::UndoLengthWithItself => each(&|p, n| behind(&(n + 2).to_le_bytes(), p)),
        L::UndoLengthBigEndian => each(&|p, n| behind(&n.to_be_bytes(), p)),
        L::UndoLength4Bytes => each(&|p, n| behind(&u32::from(n).to_le_bytes(), p)),
        L::UndoLengthMissing => each(&|p, _| p.clone()),
        L::UndoLengthBehind => each(&|p, n| behind(p, &n.to_le_bytes())),
        L::UndoLengthIn8s => each(&|p, n| behind(&(n / 8).to_le_bytes(), p)),
        L::UndoAsLines => each(&|p, _| crate::journal::line(Status::Ok.stamp(), 0, p)),
        L::UndoAligned => each(&|p, n| {
            let mut bytes = behind(&n.to_le_bytes(), p);
            bytes.resize(bytes.len().next_multiple_of(8), 0);
            bytes
        }),
        L::UndoLengthsFirst => {
            let lengths: Vec<u8> = lengths.flat_map(u16::to_le_bytes).collect();
            Some([lengths, payloads.concat()].concat())
        }
        L::UndoEndsWith0 => each(&|p, n| behind(&n.to_le_bytes(), p))
            .map(|list: Vec<u8>| [&list[..], &[0, 0]].concat()),
        L::UndoBeginsWithCount => {
            let count = (payloads.len() as u16).to_le_bytes();
            each(&|p, n| behind(&n.to_le_bytes(), p))
                .map(|list: Vec<u8>| [&count[..], &list].concat())
        }
        _ => None,
    }
}
