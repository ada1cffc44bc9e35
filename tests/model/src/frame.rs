//! A frame's way through the tables to its copies.

use crate::misread::{misread, Label as L};
use crate::order;
use crate::registers::Registers;
use crate::tables::{id_low, id_type, id_vlan, EtherType, Flow, Group, Match, Prefix, Tables};

/// One copy: nine numbers of 16 bits in the lent list. Both MACs are 0 where it is bridged.
#[derive(Clone, Copy, Debug, PartialEq, Eq)]
pub struct Copy {
    pub port: u16,
    pub vlan: u16,
    pub pop: u16,
    pub source: [u8; 6],
    pub destination: [u8; 6],
}

/// How many numbers a copy is.
pub const NUMBERS: usize = 9;

impl Copy {
    fn bridged(port: u16, vlan: u16, pop: u16) -> Copy {
        Copy {
            port,
            vlan,
            pop,
            source: [0; 6],
            destination: [0; 6],
        }
    }

    /// Port, VLAN, POP_VLAN, source MAC, destination MAC.
    pub fn numbers(&self) -> [u16; NUMBERS] {
        let [s1, s2, s3] = words(self.source);
        let [d1, d2, d3] = words(self.destination);
        let (port, vlan, pop) = (self.port, self.vlan, self.pop);
        match () {
            _ if misread(L::CopyVlanFirst) => [vlan, port, pop, s1, s2, s3, d1, d2, d3],
            _ if misread(L::CopyMacsFirst) => [s1, s2, s3, d1, d2, d3, port, vlan, pop],
            _ if misread(L::CopyDestinationFirst) => [port, vlan, pop, d1, d2, d3, s1, s2, s3],
            _ if misread(L::CopyMacWordsReversed) => [port, vlan, pop, s3, s2, s1, d3, d2, d1],
            _ => [port, vlan, pop, s1, s2, s3, d1, d2, d3],
        }
    }
}

/// A MAC as three numbers, in wire order and big-endian each.
fn words(mac: [u8; 6]) -> [u16; 3] {
    [0, 2, 4].map(|at| match () {
        _ if misread(L::CopyMacLittleEndian) => u16::from_le_bytes([mac[at], mac[at + 1]]),
        _ => u16::from_be_bytes([mac[at], mac[at + 1]]),
    })
}

/// The longest list of copies: 62 members of nine numbers.
pub const LIST: usize = 62 * NUMBERS;

/// Bytes that a routed frame has after its EtherType, at least.
fn header_length(ethertype: EtherType) -> usize {
    match ethertype {
        EtherType::Ipv4 if misread(L::Ipv4Of19) => 19,
        EtherType::Ipv4 if misread(L::Ipv4Of21) => 21,
        EtherType::Ipv4 if misread(L::Ipv4Of40) => 40,
        EtherType::Ipv6 if misread(L::Ipv6Of20) => 20,
        EtherType::Ipv6 if misread(L::Ipv6Of39) => 39,
        EtherType::Ipv6 if misread(L::Ipv6Of41) => 41,
        EtherType::Ipv4 => 20,
        EtherType::Ipv6 => 40,
    }
}

/// Where the destination address begins after the EtherType.
fn address_place(ethertype: EtherType) -> usize {
    match ethertype {
        EtherType::Ipv4 if misread(L::SourceAddress) => 12,
        EtherType::Ipv6 if misread(L::SourceAddress) => 8,
        EtherType::Ipv4 => 16,
        EtherType::Ipv6 => 24,
    }
}

fn is_tagged(frame: &[u8]) -> bool {
    frame[12..14] == [0x81, 0x00]
}

/// The EtherType's place in a frame: behind the tag, where it has one.
fn ethertype_place(frame: &[u8]) -> usize {
    match is_tagged(frame) {
        true if misread(L::EtherTypeAt12) => 12,
        true if misread(L::EtherTypeAt14) => 14,
        // Another tag behind the first one.
        true if misread(L::EtherTypeBehindTags) && frame[16..18] == [0x81, 0x00] => 20,
        true => 16,
        false => 12,
    }
}

/// The EtherType, if it is one of the two that are routed.
fn ethertype_of(frame: &[u8]) -> Option<EtherType> {
    let at = ethertype_place(frame);
    let number = u16::from_be_bytes([*frame.get(at)?, *frame.get(at + 1)?]);
    match misread(L::FrameEtherTypeLittleEndian) {
        true => EtherType::of(number.swap_bytes()),
        false => EtherType::of(number),
    }
}

/// The VLAN of a frame, 0 without a tag; `None` for bytes that are no frame.
pub fn vlan_of(frame: &[u8]) -> Option<u16> {
    match frame.len() {
        13 if misread(L::Frame13) => return Some(0),
        14 if misread(L::Frame14Refused) => return None,
        9_216 if misread(L::Frame9216Refused) => return None,
        9_217 if misread(L::Frame9217) => return Some(0),
        1_519.. if misread(L::Frame1518) => return None,
        ..18 if misread(L::FrameUntagged18) => return None,
        _ => {}
    }
    if !(14..=9_216).contains(&frame.len()) {
        return None;
    }
    let tagged = match frame[12..14] {
        [0x91, 0x00] if misread(L::TagOf9100) => true,
        [0x88, 0xa8] if misread(L::TagOf88a8) => true,
        [0x81, _] if misread(L::TagBy81) => true,
        [a, b] if misread(L::TagLittleEndian) => [b, a] == [0x81, 0x00],
        _ if misread(L::TagNone) => false,
        _ => frame[12..14] == [0x81, 0x00],
    };
    if !tagged {
        return Some(0);
    }
    match frame.len() {
        17 if misread(L::FrameTagged17) => {}
        18 if misread(L::FrameTagged18Refused) => return None,
        ..18 => return None,
        _ => {}
    }
    let number = u16::from_be_bytes([frame[14], frame[15]]);
    Some(match () {
        _ if misread(L::FrameVlanBy16Bits) => number,
        _ if misread(L::FrameVlanBy13Bits) => number & 0x1fff,
        _ if misread(L::FrameVlanLittleEndian) => number.swap_bytes() & 0xfff,
        _ => number & 0xfff,
    })
}

/// The flow of a table that decides: the first match in its order.
fn best(tables: &Tables, table: u16, matches: impl Fn(&Match) -> bool) -> Option<&Flow> {
    let passed_over = |flow: &Flow| match &flow.matching {
        _ if misread(L::DropNext) && flow.goto == 0 => true,
        Match::Bridge { group: None, .. } => misread(L::NoGroupNext),
        Match::Bridge {
            group: Some(id), ..
        } => misread(L::MissingGroupNext) && !tables.groups.contains_key(id),
        Match::Route { group: None, .. } => misread(L::RouteNoGroupNext),
        Match::Route {
            group: Some(id), ..
        } if misread(L::RouteMissingGroupNext) || misread(L::RouteMissingLowerNext) => {
            let there = |id| tables.groups.contains_key(id);
            let lower = match tables.groups.get(id) {
                Some(Group::Route { lower, .. }) => there(lower),
                _ => false,
            };
            misread(L::RouteMissingGroupNext) && !there(id)
                || misread(L::RouteMissingLowerNext) && !lower
        }
        _ => false,
    };
    let matching = |flow: &Flow| matches(&flow.matching) && !passed_over(flow);
    if order::is_checked() {
        order::watch(tables, table, matching);
    }
    let first = tables.order.first(table, matching);
    first.map(|entry| &entry.flow)
}

/// The group that the tables choose.
#[derive(Clone, Copy, Debug, PartialEq, Eq)]
enum Way {
    /// By table 50, with the VLAN that the frame then has.
    Bridged(u32, u16),
    /// By table 30: a group of type 2.
    Routed(u32),
}

/// Whether a frame is to be routed: the deciding flow of table 20 matches it.
fn is_routed(tables: &Tables, ingress: u32, vlan: u16, tag: u16, frame: &[u8]) -> bool {
    let hit = best(tables, 20, |m| match m {
        Match::Termination {
            port,
            ethertype,
            mac,
            vlan: v,
        } => {
            let ports = *port == ingress || misread(L::Table20PortIgnored);
            let types =
                Some(*ethertype) == ethertype_of(frame) || misread(L::Table20EtherTypeIgnored);
            let macs = match () {
                _ if misread(L::Table20MacIgnored) => true,
                _ if misread(L::Table20SourceMac) => mac[..] == frame[6..12],
                _ if misread(L::Table20LastMacByteFree) => mac[..5] == frame[..5],
                _ => mac[..] == frame[..6],
            };
            let vlans = match () {
                _ if misread(L::Table20VlanIgnored) => true,
                _ if misread(L::Table20VlanOfFrame) => *v == tag,
                _ => *v == vlan,
            };
            ports && types && macs && vlans
        }
        _ => false,
    });
    hit.is_some_and(|flow| flow.goto == 30) && !misread(L::Table20Ignored)
}

/// Whether an address is one of a prefix: both sides under the mask.
fn is_inside(address: &[u8], prefix: &Prefix) -> bool {
    let bytes = prefix.address.iter().zip(&prefix.mask).zip(address);
    let mut bytes = bytes.map(|((own, mask), other)| match () {
        _ if misread(L::RouteMaskOnFrameOnly) => *own == other & mask,
        _ if misread(L::RouteMaskOnFlowOnly) => own & mask == *other,
        _ if misread(L::RouteMaskIgnored) => own == other,
        _ if misread(L::RouteMaskInverted) => own & !mask == other & !mask,
        _ => own & mask == other & mask,
    });
    bytes.all(|same| same)
}

/// What table 30 makes of a frame: a group of type 2, or nothing. A misreading may send it on to table 50.
fn routed(tables: &Tables, frame: &[u8]) -> Result<Option<u32>, Bridged> {
    let ethertype = match ethertype_of(frame) {
        None => return Ok(None),
        Some(ethertype) => ethertype,
    };
    let start = match () {
        _ if misread(L::HeaderAt14) => 14,
        _ if misread(L::HeaderTakesEtherType) => ethertype_place(frame),
        _ => ethertype_place(frame) + 2,
    };
    let mut behind = frame.get(start..).unwrap_or_default().to_vec();
    let counted = match () {
        _ if misread(L::HeaderByFrame) => frame.len(),
        _ => behind.len(),
    };
    if counted < header_length(ethertype) {
        return match misread(L::ShortBridged) {
            true => Err(Bridged),
            false => Ok(None),
        };
    }
    // Longer only where a misreading takes too few bytes.
    behind.resize(behind.len().max(40), 0);
    let (_, width) = ethertype.pair();
    let address = &behind[address_place(ethertype)..][..width];
    let dropped = match () {
        _ if misread(L::IpVersionLooked) => {
            behind[0] >> 4 != if ethertype == EtherType::Ipv4 { 4 } else { 6 }
        }
        _ if misread(L::IpHeaderLooked) => ethertype == EtherType::Ipv4 && behind[0] & 15 != 5,
        _ if misread(L::TtlLooked) => match ethertype {
            EtherType::Ipv4 => behind[8] < 2,
            EtherType::Ipv6 => behind[7] < 2,
        },
        _ if misread(L::FrameUnicast) => match ethertype {
            EtherType::Ipv4 => address[0] >= 224,
            EtherType::Ipv6 => address[0] == 255,
        },
        _ => false,
    };
    if dropped {
        return Ok(None);
    }
    let hit = best(tables, 30, |m| match m {
        Match::Route {
            ethertype: own,
            prefix,
            ..
        } => {
            let types = *own == ethertype
                || misread(L::Table30EtherTypeIgnored) && prefix.mask.len() <= width;
            types && is_inside(address, prefix)
        }
        _ => false,
    });
    match hit {
        None if misread(L::Table30MissBridges) => Err(Bridged),
        Some(flow) if flow.goto == 0 && misread(L::Table30DropBridges) => Err(Bridged),
        Some(flow) => match flow.matching {
            Match::Route { group: None, .. } if misread(L::RouteNoGroupBridges) => Err(Bridged),
            Match::Route { group, .. } if flow.goto != 0 || misread(L::Table30DropPasses) => {
                Ok(group)
            }
            _ => Ok(None),
        },
        None => Ok(None),
    }
}

/// What only a misreading does with a frame that was to be routed.
struct Bridged;

/// The way of a frame, by its VLAN, through all tables.
fn way(tables: &Tables, ingress: u32, tag: u16, frame: &[u8]) -> Option<Way> {
    let vlan = tag;
    let first = best(tables, 0, |m| match m {
        Match::Ingress { .. } if misread(L::Table0Ignored) => false,
        Match::Ingress { port, mask } if misread(L::MaskOnPortOnly) => ingress & mask == *port,
        Match::Ingress { port, mask } if misread(L::MaskOnFlowOnly) => ingress == port & mask,
        Match::Ingress { port, .. } if misread(L::MaskIgnored) => ingress == *port,
        Match::Ingress { port, mask } if misread(L::MaskInverted) => {
            ingress & !mask == port & !mask
        }
        Match::Ingress { port, mask } => ingress & mask == port & mask,
        _ => false,
    });
    if misread(L::Table0MissDrops) && first.is_none() {
        return None;
    }
    // A miss in table 0 goes on to table 10, a hit goes where it says.
    if first.is_some_and(|flow| flow.goto == 0) && !misread(L::Table0DropPasses) {
        return None;
    }
    let second = best(tables, 10, |m| match m {
        Match::Vlan { vlan: v, .. } if misread(L::Table10PortIgnored) => *v == vlan,
        Match::Vlan { port, .. } if misread(L::Table10VlanIgnored) => *port == ingress,
        Match::Vlan { port, vlan: 0, .. } if misread(L::Table10UntaggedAny) => *port == ingress,
        Match::Vlan { port, vlan: v, .. } => *port == ingress && *v == vlan,
        _ => false,
    });
    if second.is_none() && !misread(L::Table10MissPasses) {
        return None;
    }
    if second.is_some_and(|flow| flow.goto == 0) && !misread(L::Table10DropPasses) {
        return None;
    }
    if misread(L::Table60Drops) {
        return None;
    }
    let vlan = match second.map(|flow| &flow.matching) {
        _ if misread(L::NewVlanIgnored) => vlan,
        Some(Match::Vlan {
            new_vlan: Some(new),
            ..
        }) => *new,
        _ => vlan,
    };
    // A hit in table 20 goes to 30, a miss to 50.
    if is_routed(tables, ingress, vlan, tag, frame) {
        if let Ok(group) = routed(tables, frame) {
            return group.map(Way::Routed);
        }
    } else if misread(L::Table20MissDrops) {
        return None;
    }
    let third = best(tables, 50, |m| match m {
        Match::Bridge { vlan: v, .. } if misread(L::Table50MacIgnored) => *v == vlan,
        Match::Bridge { vlan: v, mac, .. } if misread(L::Table50SourceMac) => {
            *v == vlan && mac.is_none_or(|mac| mac[..] == frame[6..12])
        }
        Match::Bridge { vlan: v, mac, .. } if misread(L::Table50LastMacByteFree) => {
            *v == vlan && mac.is_none_or(|mac| mac[..5] == frame[..5])
        }
        Match::Bridge { mac: None, .. } if misread(L::Table50MacNeeded) => false,
        Match::Bridge { vlan: v, mac, .. } => {
            (*v == vlan || misread(L::Table50VlanIgnored))
                && mac.is_none_or(|mac| mac[..] == frame[..6])
        }
        _ => false,
    });
    let Some(third) = third else {
        let flood = |id: &u32| misread(L::Table50MissFloods) && id_type(*id) == 4;
        let mut floods = tables.groups.keys().copied().filter(flood);
        let found = floods.find(|id| id_vlan(*id) == vlan);
        return found.map(|id| Way::Bridged(id, vlan));
    };
    match third.matching {
        Match::Bridge {
            group: Some(id), ..
        } if third.goto != 0 || misread(L::Table50DropPasses) => Some(Way::Bridged(id, vlan)),
        _ => None,
    }
}

/// Whether frames come in on a port.
fn comes_in(registers: &Registers, port: u32) -> bool {
    let known = (1..=registers.ports).contains(&port);
    match () {
        _ if misread(L::IngressDown) && known => registers.enable.value & (1 << port) != 0,
        _ if misread(L::IngressNotEnabled) && known => registers.links & (1 << port) != 0,
        _ => registers.carries(port),
    }
}

/// Whether a copy goes out on a port.
fn goes_out(registers: &Registers, ingress: u32, port: u32) -> bool {
    let known = (1..=registers.ports).contains(&port);
    match () {
        _ if misread(L::CopyToIngress) => port == 0 || registers.carries(port),
        _ if misread(L::CopyToDown) && known => {
            port != ingress && registers.enable.value & (1 << port) != 0
        }
        _ if misread(L::CopyToNotEnabled) && known => {
            port != ingress && registers.links & (1 << port) != 0
        }
        _ if misread(L::CopyHostLeftOut) => port != ingress && registers.carries(port),
        _ => port != ingress && (port == 0 || registers.carries(port)),
    }
}

/// Whether a routed copy goes out on a port: the ingress port is one like the others.
fn is_sent(registers: &Registers, ingress: u32, port: u32) -> bool {
    let known = (1..=registers.ports).contains(&port);
    match () {
        _ if misread(L::RoutedNotToIngress) && port == ingress => false,
        _ if misread(L::RoutedToDown) && known => registers.enable.value & (1 << port) != 0,
        _ if misread(L::RoutedToNotEnabled) && known => registers.links & (1 << port) != 0,
        _ if misread(L::RoutedHostLeftOut) => registers.carries(port),
        _ => port == 0 || registers.carries(port),
    }
}

/// The copy that a group of type 2 gives, if it and its lower group exist.
fn routed_copy(registers: &Registers, tables: &Tables, ingress: u32, id: u32) -> Option<Copy> {
    let Some(Group::Route {
        lower,
        vlan,
        source,
        destination,
    }) = tables.groups.get(&id)
    else {
        return None;
    };
    let (port, pop) = match tables.groups.get(lower) {
        Some(Group::Port { port, pop }) => (*port, u16::from(*pop)),
        None if misread(L::CopyOfMissingLower) => (id_low(*lower), 0),
        _ => return None,
    };
    is_sent(registers, ingress, u32::from(port)).then_some(Copy {
        port,
        vlan: *vlan,
        pop,
        source: *source,
        destination: *destination,
    })
}

/// What misreadings change of a routed copy.
fn misroute(copy: &mut Copy, frame: &[u8], frame_vlan: u16) {
    match () {
        _ if misread(L::RoutedVlanOfFrame) => copy.vlan = frame_vlan,
        _ if misread(L::RoutedPop0) => copy.pop = 0,
        _ if misread(L::RoutedPop1) => copy.pop = 1,
        _ if misread(L::RoutedSourceOfFrame) => copy.source.copy_from_slice(&frame[6..12]),
        _ if misread(L::RoutedDestinationOfFrame) => copy.destination.copy_from_slice(&frame[..6]),
        _ if misread(L::RoutedSourceOfRouter) => copy.source.copy_from_slice(&frame[..6]),
        _ if misread(L::RoutedWithoutMacs) => (copy.source, copy.destination) = ([0; 6], [0; 6]),
        _ => {}
    }
}

/// All copies of a frame that came in on a known port, in their order.
pub fn copies(registers: &Registers, tables: &Tables, ingress: u32, frame: &[u8]) -> Vec<Copy> {
    let Some(frame_vlan) = vlan_of(frame) else {
        return Vec::new();
    };
    if !comes_in(registers, ingress) {
        return Vec::new();
    }
    let (id, vlan) = match way(tables, ingress, frame_vlan, frame) {
        None => return Vec::new(),
        Some(Way::Routed(id)) if id_type(id) == 2 => {
            let mut copy = routed_copy(registers, tables, ingress, id);
            if let Some(copy) = &mut copy {
                misroute(copy, frame, frame_vlan);
            }
            return copy.into_iter().collect();
        }
        // Another type only by a misreading.
        Some(Way::Routed(id)) => (id, id_vlan(id)),
        Some(Way::Bridged(id, vlan)) => (id, vlan),
    };
    let mut chosen: Vec<u32> = match tables.groups.get(&id) {
        None | Some(Group::Route { .. }) => Vec::new(),
        Some(Group::Port { .. }) => vec![id],
        Some(Group::List { members }) => members.clone(),
    };
    match () {
        _ if misread(L::MissingMemberEnds) => {
            let missing = |id| !tables.groups.contains_key(id);
            let end = chosen.iter().position(missing).unwrap_or(chosen.len());
            chosen.truncate(end);
        }
        _ if misread(L::CopiesOnePerGroup) => chosen.truncate(1),
        _ => {}
    }
    let mut copies: Vec<Copy> = chosen
        .iter()
        .filter_map(|member| match tables.groups.get(member) {
            Some(Group::Port { port, pop }) => Some(Copy::bridged(*port, vlan, u16::from(*pop))),
            _ if misread(L::CopyOfMissingMember) => Some(Copy::bridged(id_low(*member), vlan, 0)),
            _ => None,
        })
        .filter(|copy| goes_out(registers, ingress, u32::from(copy.port)))
        .collect();
    match () {
        _ if misread(L::CopyHostLast) => copies.sort_by_key(|copy| copy.port == 0),
        _ if misread(L::CopiesByPort) => copies.sort_by_key(|copy| copy.port),
        _ => {}
    }
    for copy in &mut copies {
        match () {
            _ if misread(L::CopyVlanOfFrame) => copy.vlan = frame_vlan,
            _ if misread(L::BridgedMacsOfFrame) => {
                copy.destination.copy_from_slice(&frame[..6]);
                copy.source.copy_from_slice(&frame[6..12]);
            }
            _ if misread(L::CopyPopOfNone) && frame_vlan == 0 => copy.pop = 0,
            _ if misread(L::CopyPop0) && id_type(id) != 0 => copy.pop = 0,
            _ => {}
        }
    }
    copies
}
