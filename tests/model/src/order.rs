//! Request 2026-05: the flows of each table in the order in which they decide,
//! so that the first match ends the search; and the plain way, which looks at
//! every flow, to hold it against.

use crate::misread::{cut_if, misread, Label as L};
use crate::tables::{EtherType, Flow, Match, Status, Tables};
use std::cell::RefCell;
use std::collections::BTreeMap;
use std::sync::OnceLock;

/// The tables that have flows.
const TABLES: [u16; 5] = [0, 10, 20, 30, 50];

fn row_of(table: u16) -> usize {
    // No other table is ever put or searched.
    TABLES.iter().position(|own| *own == table).unwrap_or(4)
}

/// A flow with its key.
#[derive(Clone, Debug, PartialEq, Eq)]
pub struct Entry {
    pub cookie: u64,
    pub flow: Flow,
    /// How many flows were added before it; only misreadings look at it.
    since: u64,
}

/// Where a place was freed; only misreadings look at it.
#[derive(Clone, Copy, Debug, PartialEq, Eq)]
struct Freed {
    cookie: u64,
    row: usize,
    at: usize,
}

#[derive(Clone, Debug, Default, PartialEq, Eq)]
pub struct Order {
    /// By table, the deciding flow first.
    rows: [Vec<Entry>; 5],
    /// How many flows were ever added.
    adds: u64,
    /// Places that were freed, and how many never come back: only misreadings have any.
    freed: Vec<Freed>,
    lost: usize,
}

/// By table, two misreadings: its flows stand as they were added, or a mod moves none of them. Which flow of table 20 decides shows nowhere.
fn misordered(table: u16) -> [bool; 2] {
    let labels = match table {
        0 => [L::Order0AsAdded, L::Order0ModStays],
        10 => [L::Order10AsAdded, L::Order10ModStays],
        30 => [L::Order30AsAdded, L::Order30ModStays],
        50 => [L::Order50AsAdded, L::Order50ModStays],
        _ => return [false; 2],
    };
    labels.map(misread)
}

/// Bits of the prefix in table 30; 0 elsewhere.
fn length(flow: &Flow) -> u32 {
    match &flow.matching {
        Match::Route { prefix, .. } => prefix.length(),
        _ => 0,
    }
}

/// Where a flow stands among those of its table, the lowest first: the longest prefix, then the highest PRIORITY, then the lowest cookie.
fn rank(entry: &Entry) -> [i128; 3] {
    let cookie = i128::from(cut_if(L::OrderCookieBy32Bits, entry.cookie));
    let priority = match entry.flow.priority {
        priority if misread(L::OrderPriorityBy16Bits) => i128::from(priority & 0xffff),
        priority => i128::from(priority),
    };
    let (length, since) = (i128::from(length(&entry.flow)), i128::from(entry.since));
    let signed = i128::from(entry.flow.priority as i32);
    if entry.flow.table() == 30 {
        return match &entry.flow.matching {
            _ if misread(L::PrefixShortest) => [length, -priority, cookie],
            _ if misread(L::PriorityBeforePrefix) => [-priority, -length, cookie],
            _ if misread(L::PrefixIgnored) => [0, -priority, cookie],
            _ if misread(L::PrefixThenCookie) => [-length, 0, cookie],
            _ if misread(L::PrefixThenLowestPriority) => [-length, priority, cookie],
            _ if misread(L::RouteTiesToHigherCookie) => [-length, -priority, -cookie],
            _ if misread(L::RouteTiesToFirstAdded) => [-length, -priority, since],
            _ if misread(L::RoutePrioritySigned) => [-length, -signed, cookie],
            _ if misread(L::PrefixByWholeBytes) => [-(length / 8), -priority, cookie],
            _ if misread(L::PrefixUpTo32) => [-length.min(32), -priority, cookie],
            Match::Route { prefix, .. } if misread(L::OrderByAddress) => {
                let first = prefix
                    .address
                    .iter()
                    .fold(0, |sum: u128, byte| sum << 8 | u128::from(*byte));
                [-length, (first >> 1) as i128, -priority]
            }
            _ => [-length, -priority, cookie],
        };
    }
    let exact = matches!(entry.flow.matching, Match::Bridge { mac: Some(_), .. });
    match () {
        _ if misread(L::PriorityLowest) => [0, priority, cookie],
        _ if misread(L::PriorityIgnored) => [0, 0, cookie],
        _ if misread(L::PrioritySigned) => [0, -signed, cookie],
        _ if misread(L::TiesToHigherCookie) => [0, -priority, -cookie],
        _ if misread(L::TiesToFirstAdded) => [0, -priority, since],
        _ if misread(L::TiesToLastAdded) => [0, -priority, -since],
        _ if misread(L::TiesBySignedCookie) => [0, -priority, i128::from(entry.cookie as i64)],
        _ if misread(L::Table50MacFirst) => [-i128::from(exact), -priority, cookie],
        _ => [0, -priority, cookie],
    }
}

/// Without the cookie: where it differs a mod moves a flow.
fn level(entry: &Entry) -> [i128; 2] {
    let [first, second, _] = rank(entry);
    [first, second]
}

/// The place of a flow in a row: behind all that decide before it.
fn place(row: &[Entry], entry: &Entry) -> usize {
    let own = rank(entry);
    row.partition_point(|other| rank(other) < own)
}

/// Before all flows that only the cookie tells apart, or behind them.
fn beside_equals(row: &[Entry], entry: &Entry, behind: bool) -> usize {
    let own = level(entry);
    row.partition_point(|other| level(other) < own || behind && level(other) == own)
}

impl Order {
    fn find(&self, cookie: u64) -> Option<(usize, usize)> {
        let at = |row: &Vec<Entry>| row.iter().position(|entry| entry.cookie == cookie);
        (0..TABLES.len()).find_map(|row| Some((row, at(&self.rows[row])?)))
    }

    /// Puts a flow in its place, wherever it stood before.
    pub fn put(&mut self, cookie: u64, flow: Flow) {
        match self.find(cookie) {
            Some((row, at)) => self.replace(row, at, flow),
            None => self.add(cookie, flow),
        }
    }

    fn add(&mut self, cookie: u64, flow: Flow) {
        let table = row_of(flow.table());
        let entry = Entry {
            cookie,
            flow,
            since: self.adds,
        };
        self.adds += 1;
        let was = |freed: &Freed| match () {
            _ if misread(L::OrderAddOldPlace) => freed.cookie == cookie && freed.row == table,
            _ => freed.row == table,
        };
        let freed = self.freed.iter().rposition(was);
        let freed = freed.map(|at| self.freed.remove(at).at);
        let row = &mut self.rows[table];
        let at = match freed {
            Some(at) if misread(L::OrderAddOldPlace) => at.min(row.len()),
            Some(at) if misread(L::OrderAddFreedPlace) => at.min(row.len()),
            _ if misread(L::OrderAddLast) || misordered(entry.flow.table())[0] => row.len(),
            _ if misread(L::OrderAddFirst) => 0,
            _ if misread(L::OrderAddBehindEquals) => beside_equals(row, &entry, true),
            _ if misread(L::OrderAddBeforeEquals) => beside_equals(row, &entry, false),
            _ => place(row, &entry),
        };
        match row.iter().position(|other| level(other) == level(&entry)) {
            Some(equal) if misread(L::OrderEqualReplaced) => row[equal] = entry,
            _ => row.insert(at, entry),
        }
    }

    /// A mod: the flow leaves its place for that of its new fields, in whatever table.
    fn replace(&mut self, from: usize, at: usize, flow: Flow) {
        let old = self.rows[from].remove(at);
        let entry = Entry {
            flow,
            ..old.clone()
        };
        let to = row_of(entry.flow.table());
        if from != to {
            match () {
                _ if misread(L::OrderModTableStays) => return self.rows[from].insert(at, entry),
                _ if misread(L::OrderModTableBoth) => self.rows[from].insert(at, old.clone()),
                _ if misread(L::OrderModTableLost) => return,
                _ => {}
            }
            self.lost += usize::from(misread(L::OrderModTablePlaceLost));
        }
        let row = &mut self.rows[to];
        let right = place(row, &entry);
        let longer = length(&entry.flow) != length(&old.flow);
        let higher = entry.flow.priority != old.flow.priority;
        let same = from == to;
        let kept = same && level(&entry) == level(&old);
        let place = match () {
            _ if same && misread(L::OrderModStays) => at,
            _ if same && misordered(entry.flow.table()).contains(&true) => at,
            _ if !same && misordered(entry.flow.table())[0] => row.len(),
            _ if same && higher && misread(L::OrderModPriorityStays) => at,
            _ if same && longer && misread(L::OrderModPrefixStays) => at,
            _ if same && misread(L::OrderModUpStays) => right.max(at),
            _ if same && misread(L::OrderModDownStays) => right.min(at),
            _ if same && misread(L::OrderModOneStep) => right.clamp(at.saturating_sub(1), at + 1),
            _ if kept && misread(L::OrderModSameLast) => beside_equals(row, &entry, true),
            _ if !kept && misread(L::OrderModBehindEquals) => beside_equals(row, &entry, true),
            _ if !kept && misread(L::OrderModBeforeEquals) => beside_equals(row, &entry, false),
            _ if !same && misread(L::OrderModTableLast) => row.len(),
            _ if !same && misread(L::OrderModTableFirst) => 0,
            _ => right,
        };
        row.insert(place.min(row.len()), entry);
    }

    /// A del: those behind move up.
    pub fn remove(&mut self, cookie: u64) {
        let Some((table, at)) = self.find(cookie) else {
            return;
        };
        let row = &mut self.rows[table];
        match () {
            _ if misread(L::OrderDelStays) => return,
            _ if misread(L::OrderDelLastFills) => drop(row.swap_remove(at)),
            _ if misread(L::OrderDelFirstEqual) => {
                let own = level(&row[at]);
                let first = row.iter().position(|other| level(other) == own);
                row.remove(first.unwrap_or(at));
            }
            _ if misread(L::OrderDelHidesNext) => drop(row.drain(at..row.len().min(at + 2))),
            _ if misread(L::OrderDelHidesRest) => row.truncate(at),
            _ => drop(row.remove(at)),
        }
        let labels = [
            L::OrderAddOldPlace,
            L::OrderAddFreedPlace,
            L::OrderFreedByTable,
        ];
        if labels.into_iter().any(misread) {
            self.freed.push(Freed {
                cookie,
                row: table,
                at,
            });
        }
    }

    /// Keeps the flows that are still there; only misreadings take others along.
    pub fn retain(&mut self, flows: &BTreeMap<u64, Flow>) {
        for row in &mut self.rows {
            row.retain(|entry| flows.contains_key(&entry.cookie));
        }
    }

    /// What misreadings keep of the order of before a device reset.
    pub fn misreset(&mut self, old: Order) {
        match () {
            _ if misread(L::ResetKeepsFlows) || misread(L::OrderResetKeeps) => *self = old,
            _ if misread(L::OrderResetPlacesLost) => {
                self.lost = old.lost + old.rows.iter().map(Vec::len).sum::<usize>();
            }
            _ => {}
        }
    }

    /// How many flows there may be: as many as places, of which every freed one is used again.
    pub fn limit(&self, places: usize, live: usize, table: Option<u16>) -> usize {
        let row = table.map(row_of);
        let own = row.map_or(0, |row| self.rows[row].len());
        let freed = |freed: &Freed| Some(freed.row) == row;
        let used = self.adds as usize >= places;
        match () {
            _ if misread(L::OrderPlacesOnce) && used => 0,
            _ if misread(L::OrderPlacesByTable) => places + live - own.min(live),
            _ if misread(L::OrderFreedByTable) && used && !self.freed.iter().any(freed) => 0,
            _ => places.saturating_sub(self.lost),
        }
    }

    /// Those of its table that stand before a flow, by cookie.
    pub fn before(&self, cookie: u64) -> Option<Vec<u64>> {
        let (row, at) = self.find(cookie)?;
        Some(self.rows[row][..at].iter().map(|e| e.cookie).collect())
    }

    /// Whether the cookie alone tells the deciding flow apart from another that matches.
    pub fn is_tie(&self, table: u16, matches: impl Fn(&Flow) -> bool) -> bool {
        let row = self.rows[row_of(table)].iter();
        let mut hits = row.filter(|entry| matches(&entry.flow)).map(level);
        let first = hits.next();
        first.is_some() && hits.next() == first
    }

    /// Whether a mod would move a flow that is there.
    pub fn moves(&self, cookie: u64, flow: &Flow) -> bool {
        self.find(cookie).is_some_and(|(row, at)| {
            let old = &self.rows[row][at];
            let new = Entry {
                flow: flow.clone(),
                ..old.clone()
            };
            row != row_of(flow.table()) || level(old) != level(&new)
        })
    }

    /// Whether only the cookie tells a flow apart from one that is there.
    pub fn has_equal(&self, cookie: u64, flow: &Flow) -> bool {
        let entry = Entry {
            cookie,
            flow: flow.clone(),
            since: 0,
        };
        let row = &self.rows[row_of(flow.table())];
        row.iter().any(|other| level(other) == level(&entry))
    }

    /// What only misreadings do to the order where an add or a mod is refused.
    pub fn misrefuse(&mut self, cookie: u64, flow: &Flow, status: Status) {
        match self.find(cookie) {
            Some((row, at)) if misread(L::OrderEexistMoves) && status == Status::Eexist => {
                let mut moved = self.rows[row][at].flow.clone();
                moved.priority = flow.priority;
                self.replace(row, at, moved);
            }
            None if misread(L::OrderEnoentAdds) && status == Status::Enoent => {
                self.add(cookie, flow.clone());
            }
            None if misread(L::OrderEnomemDropsLast) && status == Status::Enomem => {
                drop(self.rows[row_of(flow.table())].pop());
            }
            _ => {}
        }
    }

    /// The deciding flow: the first match.
    pub fn first(&self, table: u16, matches: impl Fn(&Flow) -> bool) -> Option<&Entry> {
        let row = &self.rows[row_of(table)][..];
        let hit = |entry: &&Entry| matches(&entry.flow);
        let mut found = row.iter();
        match row {
            [] => None,
            _ if misread(L::OrderLastMatch) => found.rfind(hit),
            _ if misread(L::OrderFirstAlone) => found.take(1).find(hit),
            [_, rest @ ..] if misread(L::OrderFirstPassedOver) => rest.iter().find(hit),
            [rest @ .., _] if misread(L::OrderLastPassedOver) => rest.iter().find(hit),
            _ if misread(L::OrderHalfSearched) => found.take(128).find(hit),
            [first, ..] if misread(L::OrderHighestAlone) => found
                .take_while(|e| e.flow.priority == first.flow.priority)
                .find(hit),
            [first, ..] if misread(L::OrderLongestAlone) => found
                .take_while(|e| length(&e.flow) == length(&first.flow))
                .find(hit),
            [first, ..] if misread(L::OrderEtherTypeEnds) => found
                .take_while(|e| ethertype(&e.flow) == ethertype(&first.flow))
                .find(hit),
            _ if misread(L::OrderOfAllEnds) => {
                let mut all: Vec<&Entry> = self.rows.iter().flatten().collect();
                all.sort_by_key(|entry| rank(entry));
                let own = |entry: &&Entry| entry.flow.table() == table;
                let behind = all.into_iter().skip_while(|entry| !own(entry));
                behind.take_while(own).find(hit)
            }
            _ => found.find(hit),
        }
    }
}

/// That of a route.
fn ethertype(flow: &Flow) -> Option<EtherType> {
    match flow.matching {
        Match::Route { ethertype, .. } => Some(ethertype),
        _ => None,
    }
}

// -- The plain way

/// Whether a flow decides before another that matches as well, both of one table.
fn decides_before((cookie, flow): (u64, &Flow), (other_cookie, other): (u64, &Flow)) -> bool {
    if let (Match::Route { prefix, .. }, Match::Route { prefix: second, .. }) =
        (&flow.matching, &other.matching)
    {
        if prefix.length() != second.length() {
            return prefix.length() > second.length();
        }
    }
    flow.priority > other.priority || flow.priority == other.priority && cookie < other_cookie
}

/// The deciding flow, every flow looked at.
pub fn plain(flows: &BTreeMap<u64, Flow>, matches: impl Fn(&Flow) -> bool) -> Option<(u64, &Flow)> {
    let mut best = None;
    for (cookie, flow) in flows {
        if matches(flow) && best.is_none_or(|best| decides_before((*cookie, flow), best)) {
            best = Some((*cookie, flow));
        }
    }
    best
}

// -- Both held against each other

static CHECKED: OnceLock<()> = OnceLock::new();

/// From now on the order is checked after every command, and its search at every frame.
pub fn check() {
    CHECKED.get_or_init(|| ());
}

pub fn is_checked() -> bool {
    cfg!(test) || CHECKED.get().is_some()
}

thread_local! {
    /// Tables in whose search the cookie decided, since they were last asked for.
    static TIES: RefCell<Vec<u16>> = const { RefCell::new(Vec::new()) };
}

pub fn ties() -> Vec<u16> {
    TIES.take()
}

/// A search of a frame: the two ways agree, and ties are noted.
pub fn watch(tables: &Tables, table: u16, matches: impl Fn(&Flow) -> bool) {
    agree(tables, table, &matches);
    if tables.order.is_tie(table, matches) {
        TIES.with_borrow_mut(|ties| ties.push(table));
    }
}

/// The two searches of a table come to the same flow.
fn agree(tables: &Tables, table: u16, matches: impl Fn(&Flow) -> bool) {
    let first = tables.order.first(table, &matches);
    let first = first.map(|entry| (entry.cookie, &entry.flow));
    let best = plain(&tables.flows, |flow| flow.table() == table && matches(flow));
    assert_eq!(first, best, "the deciding flow of table {table}");
}

/// Whether a flow matches what another one was made for: a frame with its values, where they have no mask.
fn meets(own: &Match, other: &Match) -> bool {
    match (own, other) {
        (Match::Ingress { port, mask }, Match::Ingress { port: other, .. }) => {
            port & mask == other & mask
        }
        (
            Match::Vlan { port, vlan, .. },
            Match::Vlan {
                port: other,
                vlan: tag,
                ..
            },
        ) => (port, vlan) == (other, tag),
        (Match::Termination { .. }, Match::Termination { .. }) => own == other,
        (
            Match::Route {
                ethertype, prefix, ..
            },
            Match::Route {
                ethertype: kind,
                prefix: to,
                ..
            },
        ) => {
            let mut bytes = prefix.address.iter().zip(&prefix.mask).zip(&to.address);
            ethertype == kind && bytes.all(|((own, mask), other)| own & mask == other & mask)
        }
        (
            Match::Bridge { vlan, mac, .. },
            Match::Bridge {
                vlan: tag, mac: to, ..
            },
        ) => vlan == tag && (mac.is_none() || mac == to),
        _ => false,
    }
}

/// Each table is in order, the flows are those of the plain store, and the two searches agree on what some of them match.
pub fn check_tables(tables: &Tables) {
    let rows = &tables.order.rows;
    for (table, row) in TABLES.into_iter().zip(rows) {
        assert!(row.iter().all(|entry| entry.flow.table() == table));
        for pair in row.windows(2) {
            let [first, second] = [&pair[0], &pair[1]].map(|entry| (entry.cookie, &entry.flow));
            assert!(
                decides_before(first, second),
                "table {table} is out of order"
            );
        }
        // Of many flows some, others each time.
        let step = 1 + row.len() / 8;
        let offset = tables.order.adds as usize % step;
        for probe in row.iter().skip(offset).step_by(step) {
            agree(tables, table, |flow| {
                meets(&flow.matching, &probe.flow.matching)
            });
        }
    }
    let all = rows
        .iter()
        .flatten()
        .map(|entry| (entry.cookie, &entry.flow));
    let placed: BTreeMap<u64, &Flow> = all.collect();
    assert_eq!(placed.len(), rows.iter().map(Vec::len).sum());
    assert!(placed
        .into_iter()
        .eq(tables.flows.iter().map(|(cookie, flow)| (*cookie, flow))));
}

#[cfg(test)]
mod tests {
    use super::*;

    fn flow(priority: u32, port: u32) -> Flow {
        Flow {
            priority,
            hard_time: 0,
            idle_time: 0,
            goto: 10,
            matching: Match::Ingress { port, mask: 7 },
        }
    }

    /// Three flows of table 0, then spoiled.
    fn spoiled(spoil: impl Fn(&mut Tables)) {
        let mut tables = Tables::empty(4);
        for (cookie, priority) in [(1, 5), (2, 6), (3, 5)] {
            tables.flows.insert(cookie, flow(priority, 1));
            tables.order.put(cookie, flow(priority, 1));
        }
        check_tables(&tables);
        assert_eq!(tables.order.before(3), Some(vec![2, 1]));
        spoil(&mut tables);
        check_tables(&tables);
    }

    #[test]
    #[should_panic(expected = "out of order")]
    fn a_priority_out_of_order_is_noticed() {
        spoiled(|tables| tables.order.rows[0].swap(0, 1));
    }

    #[test]
    #[should_panic(expected = "out of order")]
    fn a_cookie_out_of_order_is_noticed() {
        spoiled(|tables| tables.order.rows[0].swap(1, 2));
    }

    #[test]
    #[should_panic]
    fn a_missing_flow_is_noticed() {
        spoiled(|tables| tables.order.remove(3));
    }

    #[test]
    #[should_panic]
    fn a_flow_that_is_gone_is_noticed() {
        spoiled(|tables| drop(tables.flows.remove(&3)));
    }

    #[test]
    #[should_panic]
    fn another_flow_is_noticed() {
        spoiled(|tables| tables.order.rows[0][2].flow.goto = 0);
    }

    #[test]
    #[should_panic]
    fn a_flow_of_another_table_is_noticed() {
        spoiled(|tables| {
            let entry = tables.order.rows[0].remove(0);
            tables.order.rows[1].push(entry);
        });
    }

    #[test]
    #[should_panic(expected = "the deciding flow")]
    fn another_deciding_flow_is_noticed() {
        spoiled(|tables| {
            tables.order.rows[0].remove(0);
            agree(tables, 0, |_| true);
        });
    }
}
