//! Flows and groups, and the commands that change them.

use crate::misread::{misread, Label as L};
use crate::order::{self, Order};
use crate::tlv::{ends_under_8, split, Fields, Place, Version};
use std::collections::BTreeMap;

/// The codes that a consumed slot is stamped with.
#[derive(Clone, Copy, Debug, PartialEq, Eq, PartialOrd, Ord)]
pub enum Status {
    Ok = 0,
    Enoent = 2,
    Enxio = 6,
    Enomem = 12,
    Eexist = 17,
    Einval = 22,
    Emsgsize = 90,
    Enotsup = 95,
}

impl Status {
    pub fn code(self) -> u16 {
        match self {
            Status::Enoent if misread(L::OtherEnoent) => 3,
            Status::Enxio if misread(L::OtherEnxio) => 5,
            Status::Enomem if misread(L::OtherEnomem) => 28,
            Status::Eexist if misread(L::OtherEexist) => 16,
            Status::Einval if misread(L::OtherEinval) => 14,
            Status::Emsgsize if misread(L::OtherEmsgsize) => 27,
            Status::Enotsup if misread(L::OtherEnotsup) => 38,
            _ => self as u16,
        }
    }

    /// COMP_ERR as it is stamped: done, with the code.
    pub fn stamp(self) -> u16 {
        0x8000 + self.code()
    }
}

/// Field types inside CMD_INFO.
pub mod field {
    pub const TBL: u32 = 1;
    pub const PRIORITY: u32 = 2;
    pub const HARDTIME: u32 = 3;
    pub const IDLETIME: u32 = 4;
    pub const COOKIE: u32 = 5;
    pub const IN_PPORT: u32 = 6;
    pub const IN_PPORT_MASK: u32 = 7;
    pub const OUT_PPORT: u32 = 8;
    pub const GOTO_TBL: u32 = 9;
    pub const GROUP_ID: u32 = 10;
    pub const GROUP_ID_LOWER: u32 = 11;
    pub const GROUP_COUNT: u32 = 12;
    pub const GROUP_IDS: u32 = 13;
    pub const VLAN_ID: u32 = 14;
    pub const NEW_VLAN_ID: u32 = 19;
    pub const ETHERTYPE: u32 = 23;
    pub const DST_MAC: u32 = 24;
    pub const SRC_MAC: u32 = 26;
    pub const DST_IP: u32 = 36;
    pub const DST_IP_MASK: u32 = 37;
    pub const DST_IPV6: u32 = 38;
    pub const DST_IPV6_MASK: u32 = 39;
    pub const POP_VLAN: u32 = 43;
}

/// Types at the top of a payload.
pub const CMD_TYPE: u32 = 1;
pub const CMD_INFO: u32 = 2;

pub const FLOW_LIMIT: usize = 256;
pub const GROUP_LIMIT: usize = 128;

/// The two EtherTypes that are routed.
#[derive(Clone, Copy, Debug, PartialEq, Eq)]
pub enum EtherType {
    Ipv4 = 0x0800,
    Ipv6 = 0x86dd,
}

impl EtherType {
    pub fn of(number: u16) -> Option<EtherType> {
        match number {
            0x86dd if misread(L::EtherTypeIpv6Refused) => None,
            0x0800 => Some(EtherType::Ipv4),
            0x86dd => Some(EtherType::Ipv6),
            _ => None,
        }
    }

    /// As it stands in a frame and in a field.
    pub fn bytes(self) -> [u8; 2] {
        (self as u16).to_be_bytes()
    }

    /// The fields of its address and mask, and how wide each is.
    pub fn pair(self) -> ([u32; 2], usize) {
        match self {
            EtherType::Ipv4 => ([field::DST_IP, field::DST_IP_MASK], 4),
            EtherType::Ipv6 => ([field::DST_IPV6, field::DST_IPV6_MASK], 16),
        }
    }

    pub fn other(self) -> EtherType {
        match self {
            EtherType::Ipv4 => EtherType::Ipv6,
            EtherType::Ipv6 => EtherType::Ipv4,
        }
    }
}

/// An address and its mask, 4 or 16 bytes each, in wire order. The address is kept as it was given.
#[derive(Clone, Debug, PartialEq, Eq)]
pub struct Prefix {
    pub address: Vec<u8>,
    pub mask: Vec<u8>,
}

impl Prefix {
    /// How many bits are compared.
    pub fn length(&self) -> u32 {
        self.mask.iter().map(|byte| byte.count_ones()).sum()
    }
}

/// Ones, then zeros; all of either too.
pub fn is_prefix_mask(mask: &[u8]) -> bool {
    let bits = || {
        mask.iter()
            .flat_map(|byte| (0..8).rev().map(move |k| byte >> k & 1))
    };
    let ones = bits().take_while(|bit| *bit == 1).count();
    match () {
        _ if misread(L::MaskAny) => true,
        _ if misread(L::MaskSuffix) => bits().skip_while(|bit| *bit == 0).all(|bit| bit == 1),
        _ if misread(L::MaskWholeBytes) && ones % 8 != 0 => false,
        _ if misread(L::MaskAllRefused) && ones == 8 * mask.len() => false,
        _ if misread(L::Mask0Refused) && ones == 0 => false,
        _ if misread(L::MaskLastBitFree) => bits()
            .take(8 * mask.len() - 1)
            .skip(ones)
            .all(|bit| bit == 0),
        _ if misread(L::MaskByFirst4Bytes) && mask.len() == 16 => {
            bits().take(32).skip(ones).all(|bit| bit == 0)
        }
        _ => bits().skip(ones).all(|bit| bit == 0),
    }
}

/// Asked of an address as it was given, also of bits outside its mask.
fn is_unicast(ethertype: EtherType, prefix: &Prefix) -> bool {
    let mut first = prefix.address[0];
    if misread(L::UnicastUnderMask) {
        first &= prefix.mask[0];
    }
    match (ethertype, first) {
        _ if misread(L::MulticastTaken) => true,
        (EtherType::Ipv4, 0) if misread(L::Ipv4First0Refused) => false,
        (EtherType::Ipv4, 127) if misread(L::Ipv4First127Refused) => false,
        (EtherType::Ipv4, 223) if misread(L::Ipv4First223Refused) => false,
        (EtherType::Ipv4, 224) if misread(L::Ipv4First224Taken) => true,
        (EtherType::Ipv4, 240..) if misread(L::Ipv4First240Taken) => true,
        (EtherType::Ipv4, 255) if misread(L::Ipv4First255Taken) => true,
        (EtherType::Ipv6, 254) if misread(L::Ipv6FirstFeRefused) => false,
        (EtherType::Ipv6, 224..) if misread(L::Ipv6First224Refused) => false,
        (EtherType::Ipv6, 255) if misread(L::Ipv6FirstFfTaken) => true,
        (EtherType::Ipv6, 0) if misread(L::Ipv6First0Refused) => false,
        (EtherType::Ipv4, first) => first < 224,
        (EtherType::Ipv6, first) => first != 0xff,
    }
}

/// What a flow compares, by table, with the data that belongs to that table.
#[derive(Clone, Debug, PartialEq, Eq)]
pub enum Match {
    /// Table 0.
    Ingress { port: u32, mask: u32 },
    /// Table 10. VLAN 0 has a new VLAN, the others have none.
    Vlan {
        port: u32,
        vlan: u16,
        new_vlan: Option<u16>,
    },
    /// Table 20.
    Termination {
        port: u32,
        ethertype: EtherType,
        mac: [u8; 6],
        vlan: u16,
    },
    /// Table 30.
    Route {
        ethertype: EtherType,
        prefix: Prefix,
        group: Option<u32>,
    },
    /// Table 50.
    Bridge {
        vlan: u16,
        mac: Option<[u8; 6]>,
        group: Option<u32>,
    },
}

#[derive(Clone, Debug, PartialEq, Eq)]
pub struct Flow {
    pub priority: u32,
    pub hard_time: u32,
    pub idle_time: u32,
    pub goto: u16,
    pub matching: Match,
}

#[derive(Clone, Debug, PartialEq, Eq)]
pub enum Group {
    /// Type 0: one port.
    Port { port: u16, pop: u8 },
    /// Type 2: new MACs, a VLAN and a group of type 0 of that VLAN.
    Route {
        lower: u32,
        vlan: u16,
        source: [u8; 6],
        destination: [u8; 6],
    },
    /// Types 3 and 4: group IDs of type 0, in their order.
    List { members: Vec<u32> },
}

/// The parts of a group ID.
pub fn id_type(id: u32) -> u32 {
    match id >> 28 {
        kind if misread(L::GroupTypeBy2Bits) => kind & 3,
        kind if misread(L::GroupTypeBy3Bits) => kind & 7,
        kind => kind,
    }
}
pub fn id_vlan(id: u32) -> u16 {
    (id >> 16 & 0xfff) as u16
}
pub fn id_low(id: u32) -> u16 {
    if misread(L::GroupLowBy8Bits) {
        return id as u16 & 0xff;
    }
    id as u16
}

fn is_vlan(vlan: u16) -> bool {
    (1..=4094).contains(&vlan)
}

/// A VLAN from 1 to 4094, where four misreadings have other edges.
fn is_vlan_but(vlan: u16, [zero, first, last, above]: [L; 4]) -> bool {
    match vlan {
        0 if misread(zero) => true,
        1 if misread(first) => false,
        4094 if misread(last) => false,
        4095 if misread(above) => true,
        _ => is_vlan(vlan),
    }
}

#[derive(Clone, Debug, PartialEq, Eq)]
pub struct Tables {
    pub ports: u32,
    /// By cookie, in no order that decides.
    pub flows: BTreeMap<u64, Flow>,
    /// The same flows in the order in which they decide.
    pub order: Order,
    pub groups: BTreeMap<u32, Group>,
    /// The cookies as they were added; only misreadings look at it.
    pub added: Vec<u64>,
}

#[derive(Clone, Copy, PartialEq, Eq)]
enum Action {
    Add,
    Mod,
}

impl Tables {
    pub fn empty(ports: u32) -> Self {
        Tables {
            ports,
            flows: BTreeMap::new(),
            order: Order::default(),
            groups: BTreeMap::new(),
            added: Vec::new(),
        }
    }

    /// Carries a payload out as a device does.
    pub fn obey(&mut self, payload: &[u8]) -> Status {
        match () {
            _ if misread(L::DeviceOld) => self.execute(payload, Version::One),
            _ if misread(L::DeviceEither) => match self.execute(payload, Version::DEVICE) {
                Status::Einval => self.execute(payload, Version::One),
                status => status,
            },
            _ => self.execute(payload, Version::DEVICE),
        }
    }

    /// Carries a payload out, its lengths read by a version. Any status but OK
    /// leaves the tables as they were.
    pub fn execute(&mut self, payload: &[u8], version: Version) -> Status {
        let done = self.command(payload, version);
        if order::is_checked() {
            order::check_tables(self);
        }
        match done {
            Ok(()) => Status::Ok,
            Err(status) => status,
        }
    }

    /// The order of the checks is the order of the statuses.
    fn command(&mut self, payload: &[u8], version: Version) -> Result<(), Status> {
        let top = Fields::of(payload, version)?;
        if misread(L::UnknownBeforeTop) && is_unknown(top.peek(CMD_TYPE)) {
            return Err(Status::Enotsup);
        }
        let mut code = u16::from_le_bytes(top.need(CMD_TYPE)?);
        let info = match top.nest(CMD_INFO)? {
            None if misread(L::CmdInfoMissing) => &[],
            info => info.ok_or(Status::Einval)?,
        };
        match code {
            _ if misread(L::CmdTypeBigEndian) => code = code.swap_bytes(),
            _ if misread(L::CmdTypeBy8Bits) => code &= 0xff,
            _ if misread(L::CmdTypeFirst) && top.place(CMD_INFO) < top.place(CMD_TYPE) => {
                return Err(Status::Einval)
            }
            _ if misread(L::CmdInfoWidth) && info.len() % 8 != 0 => return Err(Status::Einval),
            _ if misread(L::NestBeforeUnknown) => {
                drop(split(info, version, Place::Info).ok_or(Status::Einval)?)
            }
            _ if misread(L::InfoUnder8BeforeUnknown)
                && ends_under_8(info, version, Place::Info) =>
            {
                return Err(Status::Einval)
            }
            4 | 5 if misread(L::FlowModDelSwapped) => code = 9 - code,
            8 | 9 if misread(L::GroupModDelSwapped) => code = 17 - code,
            6..=9 if misread(L::GroupCommandsFrom6) => code = code % 9 + 1,
            6 if misread(L::Command6) => return Ok(()),
            _ => {}
        }
        if ![3, 4, 5, 7, 8, 9].contains(&code) {
            if misread(L::UnknownEinval) {
                return Err(Status::Einval);
            }
            return Err(Status::Enotsup);
        }
        let begins_with_tbl = info.starts_with(&[1, 0, 0, 0, 2 + version.counted() as u8, 0]);
        let other_table = info
            .get(8)
            .is_some_and(|low| !known_table(u16::from(*low), version));
        if code < 5
            && begins_with_tbl
            && other_table
            && (misread(L::TableBeforeNest)
                || misread(L::TableBeforeUnder8) && ends_under_8(info, version, Place::Info))
        {
            return Err(Status::Enotsup);
        }
        let fields = Fields::info(info, code, version)?;
        match code {
            3 => self.put_flow(Action::Add, &fields),
            4 => self.put_flow(Action::Mod, &fields),
            5 => self.del_flow(&fields),
            7 => self.put_group(Action::Add, &fields),
            8 => self.put_group(Action::Mod, &fields),
            _ => self.del_group(&fields),
        }
    }

    /// Del reads only its key.
    fn del_flow(&mut self, fields: &Fields) -> Result<(), Status> {
        fields.skipped()?;
        if misread(L::DelNeedsTable)
            || misread(L::DelLooksAtTable) && fields.peek::<2>(field::TBL).is_some()
        {
            table(fields)?;
        }
        let cookie = key(u64::from_le_bytes(fields.need(field::COOKIE)?));
        if let Some(flow) = self.flows.get(&cookie) {
            let table = fields.peek(field::TBL).map(u16::from_le_bytes);
            let priority = fields.peek(field::PRIORITY).map(u32::from_le_bytes);
            if misread(L::DelComparesTable) && table.is_some_and(|table| table != flow.table())
                || misread(L::DelComparesPriority)
                    && priority.is_some_and(|priority| priority != flow.priority)
            {
                return Err(Status::Enoent);
            }
        }
        let gone = self.flows.remove(&cookie);
        self.order.remove(cookie);
        self.added.retain(|other| *other != cookie);
        match gone {
            None if misread(L::DelOfNoneOk) => Ok(()),
            Some(_) if misread(L::DelAll) => {
                self.flows.clear();
                self.order.retain(&self.flows);
                Ok(())
            }
            gone => gone.map(|_| ()).ok_or(Status::Enoent),
        }
    }

    fn del_group(&mut self, fields: &Fields) -> Result<(), Status> {
        fields.skipped()?;
        let id = match u32::from_le_bytes(fields.need(field::GROUP_ID)?) {
            id if misread(L::GroupDelAnyType) && is_vlan(id_vlan(id)) => id,
            id if misread(L::GroupDelAnyVlan) && [0, 3, 4].contains(&id_type(id)) => id,
            id if misread(L::Type2DelAsksVlan) && id_type(id) == 2 && !is_vlan(id_vlan(id)) => {
                return Err(Status::Einval)
            }
            id if misread(L::Type2DelRefused) && id_type(id) == 2 => return Err(Status::Einval),
            id if misread(L::OldType2Deleted) && id_type(id) == 2 => id,
            _ => group_id(fields)?,
        };
        let names = |flow: &Flow| match flow.matching {
            Match::Bridge { group, .. } | Match::Route { group, .. } => group == Some(id),
            _ => false,
        };
        match () {
            _ if misread(L::GroupDelDropsType2) => {
                let above =
                    |group: &Group| matches!(group, Group::Route { lower, .. } if *lower == id);
                self.groups.retain(|_, group| !above(group));
            }
            _ if misread(L::GroupDelLowBits) && u32::from(id_low(id)) > self.ports => {
                return Err(Status::Einval)
            }
            _ if misread(L::GroupDelInUse) && self.flows.values().any(names) => {
                return Err(Status::Einval)
            }
            _ if misread(L::GroupDelDropsFlows) => {
                self.flows.retain(|_, flow| !names(flow));
                self.order.retain(&self.flows);
            }
            _ if misread(L::GroupDelDropsMembers) => {
                for group in self.groups.values_mut() {
                    if let Group::List { members } = group {
                        members.retain(|member| *member != id);
                    }
                }
            }
            _ => {}
        }
        match self.groups.remove(&id) {
            None if misread(L::DelOfNoneOk) => Ok(()),
            Some(_) if misread(L::DelAll) => {
                self.groups.clear();
                Ok(())
            }
            gone => gone.map(|_| ()).ok_or(Status::Enoent),
        }
    }

    fn put_flow(&mut self, action: Action, fields: &Fields) -> Result<(), Status> {
        let limit = match () {
            _ if misread(L::Flows255) => 255,
            _ if misread(L::Flows257) => 257,
            _ if misread(L::FullBySum) => FLOW_LIMIT - self.groups.len(),
            _ => {
                let table = fields.peek(field::TBL).map(u16::from_le_bytes);
                self.order.limit(FLOW_LIMIT, self.flows.len(), table)
            }
        };
        if let Some(cookie) = fields.peek(field::COOKIE).map(u64::from_le_bytes) {
            early(&self.flows, limit, action, &cookie)?;
        }
        let (cookie, mut flow) = self.flow(fields)?;
        if let Some(old) = self.flows.get(&cookie) {
            let other_table = old.table() != flow.table();
            match action {
                Action::Mod if misread(L::ModKeepsTable) && other_table => {
                    return Err(Status::Einval)
                }
                Action::Mod if misread(L::CookieByTable) && other_table => {
                    return Err(Status::Enoent)
                }
                Action::Add if misread(L::CookieByTable) && other_table => return Ok(()),
                Action::Mod => flow.mismodify(old),
                Action::Add => {}
            }
        }
        match action {
            Action::Mod
                if misread(L::OrderModFull)
                    && self.flows.len() >= limit
                    && self.order.moves(cookie, &flow) =>
            {
                return Err(Status::Enomem)
            }
            Action::Add if misread(L::OrderEqualEexist) && self.order.has_equal(cookie, &flow) => {
                return Err(Status::Eexist)
            }
            _ => {}
        }
        let gone = misread(L::TimesExpire) && flow.hard_time > 0;
        if let Err(status) = put(&mut self.flows, limit, action, cookie, flow.clone()) {
            self.order.misrefuse(cookie, &flow, status);
            return Err(status);
        }
        self.order.put(cookie, flow);
        if action == Action::Add {
            self.added.push(cookie);
        }
        if gone {
            self.flows.remove(&cookie);
            self.order.remove(cookie);
        }
        Ok(())
    }

    fn put_group(&mut self, action: Action, fields: &Fields) -> Result<(), Status> {
        let limit = match () {
            _ if misread(L::Groups127) => 127,
            _ if misread(L::Groups129) => 129,
            _ if misread(L::FullBySum) => FLOW_LIMIT.saturating_sub(self.flows.len()),
            _ => GROUP_LIMIT,
        };
        if let Some(id) = fields.peek(field::GROUP_ID).map(u32::from_le_bytes) {
            early(&self.groups, limit, action, &id)?;
            let members = fields.nest(field::GROUP_IDS).ok().flatten();
            let is_under_8 = |nest| ends_under_8(nest, fields.version(), Place::Members);
            if misread(L::KeyBeforeMembersUnder8) && members.is_some_and(is_under_8) {
                match (action, self.groups.contains_key(&id)) {
                    (Action::Add, true) => return Err(Status::Eexist),
                    (Action::Mod, false) => return Err(Status::Enoent),
                    _ => {}
                }
            }
        }
        let (id, mut group) = self.group(fields)?;
        if let (Action::Mod, Some(old)) = (action, self.groups.get(&id)) {
            group.mismodify(old);
        }
        put(&mut self.groups, limit, action, id, group)
    }

    fn is_port(&self, port: u32) -> bool {
        (1..=self.ports).contains(&port)
    }

    fn flow(&self, fields: &Fields) -> Result<(u64, Flow), Status> {
        let table = table(fields)?;
        fields.skipped()?;
        let onward = match table {
            0 => 10,
            10 => 20,
            20 => 30,
            _ => 60,
        };
        let cookie = key(u64::from_le_bytes(fields.need(field::COOKIE)?));
        let times_missing = [field::HARDTIME, field::IDLETIME]
            .iter()
            .any(|kind| fields.peek::<4>(*kind).is_none());
        if misread(L::TimesRequired) && times_missing
            || misread(L::CookieZeroRefused) && cookie == 0
        {
            return Err(Status::Einval);
        }
        let flow = Flow {
            priority: u32::from_le_bytes(fields.need(field::PRIORITY)?),
            hard_time: u32::from_le_bytes(fields.maybe(field::HARDTIME)?.unwrap_or_default()),
            idle_time: u32::from_le_bytes(fields.maybe(field::IDLETIME)?.unwrap_or_default()),
            goto: u16::from_le_bytes(fields.need(field::GOTO_TBL)?),
            matching: match table {
                0 => self.ingress_match(fields)?,
                10 => self.vlan_match(fields)?,
                20 => self.termination_match(fields)?,
                30 => route_match(fields, &self.groups)?,
                _ => self.bridge_match(fields)?,
            },
        };
        let goes = match (table, flow.goto) {
            (20, 0) if misread(L::Table20Goto0) => true,
            (_, 0) if misread(L::Goto0Refused) => false,
            (_, 10 | 20 | 30 | 50 | 60) if misread(L::GotoAnyTable) => true,
            (0, 50) if misread(L::Table0Goto50) => true,
            (0, 20) if misread(L::Table0Goto20) => true,
            (10, 50) if misread(L::Table10Goto50) => true,
            (10, 30) if misread(L::Table10Goto30) => true,
            (10, 10) if misread(L::Table10Goto10) => true,
            (20, 40) if misread(L::Table20Goto40) => true,
            (20, 50) if misread(L::Table20Goto50) => true,
            (20, 60) if misread(L::Table20Goto60) => true,
            (30, 50) if misread(L::Table30Goto50) => true,
            (30, 0) if misread(L::Table30Goto0Refused) => false,
            (50, 20) if misread(L::Table50Goto20) => true,
            // A hit in table 20 is always routed.
            (20, goto) => goto == onward,
            (_, goto) => goto == 0 || goto == onward,
        };
        if !goes {
            return Err(Status::Einval);
        }
        Ok((cookie, flow))
    }

    fn ingress_match(&self, fields: &Fields) -> Result<Match, Status> {
        let port = u32::from_le_bytes(fields.need(field::IN_PPORT)?);
        let mask = u32::from_le_bytes(fields.need(field::IN_PPORT_MASK)?);
        if misread(L::Table0PortRange) && !self.is_port(port)
            || misread(L::Table0MaskCovers) && port & !mask != 0
            || misread(L::Table0MaskNot0) && mask == 0
        {
            return Err(Status::Einval);
        }
        Ok(Match::Ingress { port, mask })
    }

    fn vlan_match(&self, fields: &Fields) -> Result<Match, Status> {
        let mut port = u32::from_le_bytes(fields.need(field::IN_PPORT)?);
        let mut vlan = u16::from_be_bytes(fields.need(field::VLAN_ID)?);
        let new_vlan = fields.maybe(field::NEW_VLAN_ID)?.map(u16::from_be_bytes);
        match () {
            _ if misread(L::Table10PortBy16Bits) => port &= 0xffff,
            _ if misread(L::VlanBy12Bits) => vlan &= 0xfff,
            _ => {}
        }
        let known = match port {
            0 if misread(L::Table10Port0) => true,
            1 if misread(L::Table10Port1Refused) => false,
            _ if misread(L::Table10LastPortRefused) && port == self.ports => false,
            _ if misread(L::Table10PortAbove) && port == self.ports + 1 => true,
            _ => self.is_port(port),
        };
        let edges = [
            L::NewVlan0,
            L::NewVlan1Refused,
            L::NewVlan4094Refused,
            L::NewVlan4095,
        ];
        let fits = match new_vlan {
            _ if misread(L::Table10Vlan0Refused) && vlan == 0 => false,
            None if misread(L::NewVlanOptional) && vlan == 0 => true,
            None if misread(L::NewVlanRequired) => false,
            None if misread(L::Table10Vlan1Refused) && vlan == 1 => false,
            None if misread(L::Table10Vlan4094Refused) && vlan == 4094 => false,
            None if misread(L::Table10Vlan4095) && vlan == 4095 => true,
            Some(new) if misread(L::NewVlanAlways) => is_vlan(new) && vlan <= 4094,
            Some(new) if misread(L::NewVlanRequired) => is_vlan(new) && vlan <= 4094,
            Some(new) => vlan == 0 && is_vlan_but(new, edges),
            None => is_vlan(vlan),
        };
        if !known || !fits {
            return Err(Status::Einval);
        }
        Ok(Match::Vlan {
            port,
            vlan,
            new_vlan,
        })
    }

    fn termination_match(&self, fields: &Fields) -> Result<Match, Status> {
        let mut port = u32::from_le_bytes(fields.need(field::IN_PPORT)?);
        let ethertype = ethertype(fields)?;
        let mac = fields.need::<6>(field::DST_MAC)?;
        let vlan = u16::from_be_bytes(fields.need(field::VLAN_ID)?);
        if misread(L::Table20PortBy16Bits) {
            port &= 0xffff;
        }
        let known = match port {
            0 if misread(L::Table20Port0) => true,
            1 if misread(L::Table20Port1Refused) => false,
            _ if misread(L::Table20LastPortRefused) && port == self.ports => false,
            _ if misread(L::Table20PortAbove) && port == self.ports + 1 => true,
            _ if misread(L::Table20AnyPort) => true,
            _ => self.is_port(port),
        };
        let edges = [
            L::Table20Vlan0,
            L::Table20Vlan1Refused,
            L::Table20Vlan4094Refused,
            L::Table20Vlan4095,
        ];
        let masks = [7, 15, 25];
        let partly = |kind: &u32| {
            fields
                .peek::<2>(*kind)
                .is_some_and(|mask| mask != [0xff; 2])
        };
        let out = fields.peek(field::OUT_PPORT).map(u32::from_le_bytes);
        let refused = match () {
            _ if misread(L::Table20MacEven) => mac[0] % 2 == 1,
            _ if misread(L::Table20MacNot0) => mac == [0; 6],
            _ if misread(L::Table20Masks) => masks.iter().any(partly),
            _ if misread(L::Table20OutPport) => out.is_some_and(|port| port != 0),
            _ => false,
        };
        if !known || !is_vlan_but(vlan, edges) || refused {
            return Err(Status::Einval);
        }
        Ok(Match::Termination {
            port,
            ethertype,
            mac,
            vlan,
        })
    }

    fn bridge_match(&self, fields: &Fields) -> Result<Match, Status> {
        let mut vlan = u16::from_be_bytes(fields.need(field::VLAN_ID)?);
        if misread(L::VlanBy12Bits) {
            vlan &= 0xfff;
        }
        let mac = fields.maybe::<6>(field::DST_MAC)?;
        let group = fields.maybe(field::GROUP_ID)?.map(u32::from_le_bytes);
        let odd = mac.is_some_and(|mac| match () {
            _ if misread(L::MacByLastByte) => mac[5] % 2 == 1,
            _ if misread(L::MacBroadcastOnly) => mac == [0xff; 6],
            _ => mac[0] % 2 == 1,
        });
        let kinds: &[u32] = match mac {
            None if misread(L::NoMacType0) => &[0, 4],
            None if misread(L::NoMacType3) => &[3, 4],
            None if misread(L::NoMacType4Refused) => &[],
            None => &[4],
            Some(_) if !odd && misread(L::EvenMacType2) => &[0, 2],
            Some(_) if !odd && misread(L::EvenMacType3) => &[0, 3],
            Some(_) if !odd && misread(L::EvenMacType4) => &[0, 4],
            Some(_) if !odd => &[0],
            Some(_) if misread(L::OddMacType0) => &[0, 3, 4],
            Some(_) if misread(L::OddMacType3Refused) => &[4],
            Some(_) if misread(L::OddMacType4Refused) => &[3],
            Some(_) => &[3, 4],
        };
        let fits = group.is_none_or(|id| {
            (id_vlan(id) == vlan || misread(L::Table50OtherVlan)) && kinds.contains(&id_type(id))
        });
        let edges = [
            L::Table50Vlan0,
            L::Table50Vlan1Refused,
            L::Table50Vlan4094Refused,
            L::Table50Vlan4095,
        ];
        if !is_vlan_but(vlan, edges) || !fits {
            return Err(Status::Einval);
        }
        let new_vlan = fields.peek(field::NEW_VLAN_ID).map(u16::from_be_bytes);
        let refused = match group {
            _ if misread(L::Table50MacRequired) => mac.is_none(),
            _ if misread(L::Table50NewVlan) => new_vlan.is_some_and(|new| !is_vlan(new)),
            None => misread(L::Table50GroupRequired),
            Some(id) if misread(L::Table50GroupExists) => !self.groups.contains_key(&id),
            Some(id) if misread(L::Table50LowBits) => {
                id_type(id) == 0 && u32::from(id_low(id)) > self.ports
            }
            Some(_) => false,
        };
        if refused {
            return Err(Status::Einval);
        }
        Ok(Match::Bridge { vlan, mac, group })
    }

    fn group(&self, fields: &Fields) -> Result<(u32, Group), Status> {
        let id = group_id(fields)?;
        fields.skipped()?;
        let group = if id_type(id) == 2 {
            self.route_group(id, fields)?
        } else if id_type(id) == 0 {
            let port = u32::from_le_bytes(fields.need(field::OUT_PPORT)?);
            let [pop] = fields.need(field::POP_VLAN)?;
            let known = match port {
                0 if misread(L::OutPport0Refused) => false,
                1 if misread(L::OutPport1Refused) => false,
                _ if misread(L::OutPportLastRefused) && port == self.ports => false,
                _ if misread(L::OutPportAbove) && port == self.ports + 1 => true,
                1..=62 if misread(L::OutPport62) => true,
                _ if misread(L::OutPportBy16Bits) => port & 0xffff <= self.ports,
                _ => port == 0 || self.is_port(port),
            };
            let equal = match port {
                _ if misread(L::OutPportAny) => true,
                _ if misread(L::OutPportBy16Bits) => port as u16 == id_low(id),
                _ => port == u32::from(id_low(id)),
            };
            let pops = match pop {
                2 if misread(L::Pop2) => true,
                3.. if misread(L::Pop255) => true,
                1 if misread(L::Pop1Refused) => false,
                _ => pop <= 1,
            };
            let count = fields.peek(field::GROUP_COUNT).map(u16::from_le_bytes);
            let counted = count.is_some_and(|count| !(1..=62).contains(&count));
            if !equal || !known || !pops || misread(L::CountForType0) && counted {
                return Err(Status::Einval);
            }
            Group::Port {
                port: id_low(id),
                pop,
            }
        } else {
            let count = u16::from_le_bytes(fields.need(field::GROUP_COUNT)?);
            let nest = fields.need_nest(field::GROUP_IDS)?;
            let port = fields.peek(field::OUT_PPORT).map(u32::from_le_bytes);
            let pop = fields.peek(field::POP_VLAN).map(|[pop]| pop);
            let counts = match count {
                0 if misread(L::Count0) => true,
                1 if misread(L::Count1Refused) => false,
                62 if misread(L::Count62Refused) => false,
                63 if misread(L::Count63) => true,
                _ if misread(L::CountByPorts) => (1..=self.ports).contains(&u32::from(count)),
                _ if misread(L::OutPportForLists) && port.is_some_and(|port| port > self.ports) => {
                    false
                }
                _ if misread(L::PopForLists) && pop.is_some_and(|pop| pop > 1) => false,
                _ => (1..=62).contains(&count),
            };
            if !counts {
                return Err(Status::Einval);
            }
            Group::List {
                members: self.members(nest, usize::from(count), id, fields.version())?,
            }
        };
        Ok((id, group))
    }

    /// A group of type 2. The lower group needs not exist, and its low bits may be no port.
    fn route_group(&self, id: u32, fields: &Fields) -> Result<Group, Status> {
        let lower = u32::from_le_bytes(fields.need(field::GROUP_ID_LOWER)?);
        let vlan = u16::from_be_bytes(fields.need(field::VLAN_ID)?);
        let source = fields.need::<6>(field::SRC_MAC)?;
        let destination = fields.need::<6>(field::DST_MAC)?;
        let edges = [
            L::Type2Vlan0,
            L::Type2Vlan1Refused,
            L::Type2Vlan4094Refused,
            L::Type2Vlan4095,
        ];
        let typed = match id_type(lower) {
            2 if misread(L::LowerType2) => true,
            3 | 4 if misread(L::LowerList) => true,
            kind => kind == 0,
        };
        let same_vlan = id_vlan(lower) == vlan || misread(L::LowerAnyVlan);
        let pop = fields.peek(field::POP_VLAN).map(|[pop]: [u8; 1]| pop);
        let refused = match () {
            _ if misread(L::Type2VlanInId) => id_vlan(id) != vlan,
            _ if misread(L::LowerExists) => !self.groups.contains_key(&lower),
            _ if misread(L::LowerLowBits) => u32::from(id_low(lower)) > self.ports,
            _ if misread(L::LowerHostRefused) => id_low(lower) == 0,
            _ if misread(L::Type2SourceEven) => source[0] % 2 == 1,
            _ if misread(L::Type2DestinationEven) => destination[0] % 2 == 1,
            _ if misread(L::Type2SourceNot0) => source == [0; 6],
            _ if misread(L::Type2DestinationNot0) => destination == [0; 6],
            _ if misread(L::Type2MacsDiffer) => source == destination,
            _ if misread(L::Type2Pop) => pop.is_some_and(|pop| pop > 1),
            _ => false,
        };
        if !is_vlan_but(vlan, edges) || !typed || !same_vlan || refused {
            return Err(Status::Einval);
        }
        Ok(Group::Route {
            lower,
            vlan,
            source,
            destination,
        })
    }

    /// The member list: nothing in it is skipped, and members need not exist.
    fn members(
        &self,
        nest: &[u8],
        count: usize,
        group: u32,
        version: Version,
    ) -> Result<Vec<u32>, Status> {
        let mut list = match split(nest, version, Place::Members) {
            None if misread(L::MembersIllFormed) => (0..nest.len())
                .rev()
                .find_map(|end| split(&nest[..end], version, Place::Members))
                .unwrap_or_default(),
            list => list.ok_or(Status::Einval)?,
        };
        match () {
            _ if misread(L::MembersSkip) => {
                list.retain(|tlv| (1..=62).contains(&tlv.kind));
            }
            _ if misread(L::MembersAnyOrder) => list.sort_by_key(|tlv| tlv.kind),
            _ => {}
        }
        let counted = match () {
            _ if misread(L::CountIgnored) => !list.is_empty(),
            _ if misread(L::CountAtLeast) => list.len() >= count,
            _ if misread(L::CountAtMost) => list.len() <= count,
            _ => list.len() == count,
        };
        if !counted {
            return Err(Status::Einval);
        }
        let mut found: Vec<u32> = Vec::new();
        for (k, tlv) in (1..).zip(list) {
            let value: [u8; 4] = match tlv.value.len() {
                5.. if misread(L::MembersWider) => tlv.value[..4].try_into(),
                _ => tlv.value.try_into(),
            }
            .map_err(|_| Status::Einval)?;
            let id = match () {
                _ if misread(L::MembersBigEndian) => u32::from_be_bytes(value),
                _ => u32::from_le_bytes(value),
            };
            let numbered = match () {
                _ if misread(L::MembersFrom0) => tlv.kind == k - 1,
                _ if misread(L::MembersAnyType) => true,
                _ if misread(L::MemberTypeBy16Bits) => tlv.kind & 0xffff == k,
                _ => tlv.kind == k,
            };
            let typed = match () {
                _ if misread(L::MembersAnyGroupType) => true,
                _ if misread(L::MembersType2) && id_type(id) == 2 => true,
                _ if misread(L::MembersSameType) => id_type(id) == id_type(group),
                _ => id_type(id) == 0,
            };
            let same_vlan = id_vlan(id) == id_vlan(group) || misread(L::MembersAnyVlan);
            let refused = match () {
                _ if misread(L::MembersExist) => !self.groups.contains_key(&id),
                _ if misread(L::MembersLowBits) => u32::from(id_low(id)) > self.ports,
                _ if misread(L::MembersHostRefused) => id_low(id) == 0,
                _ if misread(L::Type4Sorted) && id_type(group) == 4 => {
                    found.last().is_some_and(|last| *last > id)
                }
                _ => false,
            };
            let twice = match () {
                _ if misread(L::MembersTwice) => false,
                _ if misread(L::MembersNeighbours) => found.last() == Some(&id),
                _ => found.contains(&id),
            };
            if !numbered || !typed || !same_vlan || refused || twice {
                return Err(Status::Einval);
            }
            found.push(id);
        }
        Ok(found)
    }
}

impl Flow {
    pub fn table(&self) -> u16 {
        match self.matching {
            Match::Ingress { .. } => 0,
            Match::Vlan { .. } => 10,
            Match::Termination { .. } => 20,
            Match::Route { .. } => 30,
            Match::Bridge { .. } => 50,
        }
    }

    /// What misreadings keep of the flow that a mod replaces.
    fn mismodify(&mut self, old: &Flow) {
        match () {
            _ if misread(L::ModKeepsPriority) => self.priority = old.priority,
            _ if misread(L::ModKeepsGoto) => self.goto = old.goto,
            _ if misread(L::ModKeepsMatch) => self.matching = old.matching.clone(),
            _ => {}
        }
        if let (
            Match::Bridge { mac, group, .. },
            Match::Bridge {
                mac: old_mac,
                group: old_group,
                ..
            },
        ) = (&mut self.matching, &old.matching)
        {
            if misread(L::ModKeepsMac) {
                *mac = mac.or(*old_mac);
            }
            if misread(L::ModKeepsGroup) {
                *group = group.or(*old_group);
            }
        }
        if let (
            Match::Route { group, prefix, .. },
            Match::Route {
                group: old_group,
                prefix: old_prefix,
                ..
            },
        ) = (&mut self.matching, &old.matching)
        {
            if misread(L::ModKeepsRouteGroup) {
                *group = group.or(*old_group);
            }
            if misread(L::ModKeepsPrefix) && prefix.mask.len() == old_prefix.mask.len() {
                prefix.clone_from(old_prefix);
            }
        }
    }
}

impl Group {
    /// What misreadings keep of the group that a mod replaces.
    fn mismodify(&mut self, old: &Group) {
        match (self, old) {
            (
                Group::Route {
                    lower,
                    vlan,
                    source,
                    destination,
                },
                Group::Route {
                    lower: old_lower,
                    vlan: old_vlan,
                    source: old_source,
                    destination: old_destination,
                },
            ) => match () {
                _ if misread(L::GroupModKeepsLower) => {
                    (*lower, *vlan) = (*old_lower, *old_vlan);
                }
                _ if misread(L::GroupModKeepsSource) => *source = *old_source,
                _ if misread(L::GroupModKeepsDestination) => *destination = *old_destination,
                _ => {}
            },
            (Group::Port { pop, .. }, Group::Port { pop: old, .. }) => {
                if misread(L::GroupModKeepsPop) {
                    *pop = *old;
                }
            }
            (Group::List { members }, Group::List { members: old }) => match () {
                _ if misread(L::GroupModKeepsMembers) => members.clone_from(old),
                _ if misread(L::GroupModAddsMembers) => {
                    let more: Vec<u32> = members
                        .iter()
                        .copied()
                        .filter(|id| !old.contains(id))
                        .collect();
                    *members = [&old[..], &more[..]].concat();
                }
                _ => {}
            },
            _ => {}
        }
    }
}

fn is_unknown(code: Option<[u8; 2]>) -> bool {
    code.is_some_and(|code| ![3, 4, 5, 7, 8, 9].contains(&u16::from_le_bytes(code)))
}

/// The cookie as the key of a flow.
fn key(cookie: u64) -> u64 {
    if misread(L::CookieBy32Bits) {
        return cookie & 0xffff_ffff;
    }
    cookie
}

/// The tables that there are. Versions 1 and 2 have neither 20 nor 30.
fn known_table(table: u16, version: Version) -> bool {
    match table {
        0 | 10 | 50 => true,
        20 if misread(L::Table20Enotsup) => false,
        30 if misread(L::Table30Enotsup) => false,
        20 if misread(L::OldTable20) => true,
        30 if misread(L::OldTable30) => true,
        20 | 30 => version.routes(),
        _ => false,
    }
}

/// ETHERTYPE, which is one of two.
fn ethertype(fields: &Fields) -> Result<EtherType, Status> {
    let number = u16::from_be_bytes(fields.need(field::ETHERTYPE)?);
    match EtherType::of(number) {
        None if misread(L::EtherTypeAny) => Ok(EtherType::Ipv4),
        None if misread(L::EtherType0806) && number == 0x0806 => Ok(EtherType::Ipv4),
        None if misread(L::EtherType8847) && number == 0x8847 => Ok(EtherType::Ipv4),
        ethertype => ethertype.ok_or(Status::Einval),
    }
}

/// The address and mask of the flow's ETHERTYPE, without those of the other one.
fn route_match(fields: &Fields, groups: &BTreeMap<u32, Group>) -> Result<Match, Status> {
    let ethertype = ethertype(fields)?;
    let (others, width) = ethertype.other().pair();
    for kind in others {
        fields.absent(kind, width)?;
    }
    let ([address, mask], _) = ethertype.pair();
    let prefix = match ethertype {
        EtherType::Ipv4 => Prefix {
            address: fields.need::<4>(address)?.to_vec(),
            mask: fields.need::<4>(mask)?.to_vec(),
        },
        EtherType::Ipv6 => Prefix {
            address: fields.need::<16>(address)?.to_vec(),
            mask: fields.need::<16>(mask)?.to_vec(),
        },
    };
    let group = fields.maybe(field::GROUP_ID)?.map(u32::from_le_bytes);
    let typed = group.is_none_or(|id| match id_type(id) {
        0 if misread(L::RouteGroupType0) => true,
        3 | 4 if misread(L::RouteGroupList) => true,
        _ if misread(L::RouteGroup0None) && id == 0 => true,
        kind => kind == 2,
    });
    let outside = || {
        let mut bits = prefix.address.iter().zip(&prefix.mask);
        bits.any(|(address, mask)| address & !mask != 0)
    };
    let vlan = fields.peek(field::VLAN_ID).map(u16::from_be_bytes);
    let refused = match group {
        _ if misread(L::AddressBitsOutside) => outside(),
        _ if misread(L::RouteVlan) => vlan.is_some_and(|vlan| !is_vlan(vlan)),
        None => misread(L::RouteGroupRequired),
        Some(id) if misread(L::RouteGroupExists) => !groups.contains_key(&id),
        Some(id) if misread(L::Type2AsksVlan) => !is_vlan(id_vlan(id)),
        Some(id) if misread(L::Type2IndexBy16Bits) => id & 0x0fff_0000 != 0,
        Some(_) => false,
    };
    if !is_prefix_mask(&prefix.mask) || !is_unicast(ethertype, &prefix) || !typed || refused {
        return Err(Status::Einval);
    }
    Ok(Match::Route {
        ethertype,
        prefix,
        group: group.filter(|id| *id != 0 || !misread(L::RouteGroup0None)),
    })
}

/// TBL. A table that is not there comes before every fault of other fields.
fn table(fields: &Fields) -> Result<u16, Status> {
    let version = fields.version();
    let known = |table: u16| known_table(table, version);
    let first = fields.peek(field::TBL).map(u16::from_le_bytes);
    match first {
        Some(table) if misread(L::TableBeforeForm) && !known(table) => return Err(Status::Enotsup),
        None if misread(L::TableMissingEnotsup) => return Err(Status::Enotsup),
        _ => {}
    }
    let table = match u16::from_le_bytes(fields.need(field::TBL)?) {
        40 if misread(L::Table40Taken) => 30,
        60 if misread(L::Table60Taken) => 50,
        table => table,
    };
    if known(table) {
        return Ok(table);
    }
    if misread(L::FieldsBeforeTable) {
        fields.need::<8>(field::COOKIE)?;
        fields.need::<4>(field::PRIORITY)?;
    }
    if misread(L::TableEinval) || misread(L::OldTableEinval) && [20, 30].contains(&table) {
        return Err(Status::Einval);
    }
    Err(Status::Enotsup)
}

/// Two misreadings of the order: the key, or the full table, before bad fields.
fn early<K: Ord, V>(
    map: &BTreeMap<K, V>,
    limit: usize,
    action: Action,
    key: &K,
) -> Result<(), Status> {
    match (action, map.contains_key(key)) {
        (Action::Add, true) if misread(L::KeyBeforeFields) => Err(Status::Eexist),
        (Action::Mod, false) if misread(L::KeyBeforeFields) => Err(Status::Enoent),
        (Action::Add, _) if misread(L::FullBeforeFields) && map.len() >= limit => {
            Err(Status::Enomem)
        }
        _ => Ok(()),
    }
}

/// Adds or replaces. A key that is there comes before a full table.
fn put<K: Ord, V>(
    map: &mut BTreeMap<K, V>,
    limit: usize,
    action: Action,
    key: K,
    value: V,
) -> Result<(), Status> {
    let there = map.contains_key(&key);
    let full = map.len() >= limit;
    match action {
        Action::Add if misread(L::FullBeforeKey) && full => return Err(Status::Enomem),
        Action::Mod if misread(L::ModWhenFull) && full => return Err(Status::Enomem),
        Action::Add if misread(L::AddReplaces) && there => {}
        Action::Mod if misread(L::ModAdds) => {}
        Action::Add if there => return Err(Status::Eexist),
        Action::Mod if !there => return Err(Status::Enoent),
        Action::Add if full => return Err(Status::Enomem),
        _ => {}
    }
    map.insert(key, value);
    Ok(())
}

/// A group's own ID; the low bits are left to the type's own checks. One of type 2 has an index in all other bits, and no VLAN.
fn group_id(fields: &Fields) -> Result<u32, Status> {
    let id = u32::from_le_bytes(fields.need(field::GROUP_ID)?);
    let known = match id_type(id) {
        1 if misread(L::GroupType1) => true,
        2 if misread(L::GroupType2Refused) => false,
        2 if misread(L::OldType2Enotsup) && !fields.version().routes() => {
            return Err(Status::Enotsup)
        }
        2 => fields.version().routes() || misread(L::OldType2),
        5 if misread(L::GroupType5) => true,
        kind => [0, 3, 4].contains(&kind),
    };
    if known && id_type(id) == 2 {
        return match id {
            _ if misread(L::Type2AsksVlan) && !is_vlan(id_vlan(id)) => Err(Status::Einval),
            _ if misread(L::Type2IndexBy16Bits) && id & 0x0fff_0000 != 0 => Err(Status::Einval),
            0x2000_0000 if misread(L::Type2Index0Refused) => Err(Status::Einval),
            _ => Ok(id),
        };
    }
    let edges = [
        L::GroupVlan0,
        L::GroupVlan1Refused,
        L::GroupVlan4094Refused,
        L::GroupVlan4095,
    ];
    if known && is_vlan_but(id_vlan(id), edges) {
        Ok(id)
    } else {
        Err(Status::Einval)
    }
}
