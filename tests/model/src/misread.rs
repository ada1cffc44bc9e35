//! Misreadings: one sentence of the build description, of the requests
//! 2026-02, 2026-03, 2026-04 and 2026-05, or of the console's line ends, taken
//! in another sense.
//!
//! None is chosen unless the command line names one, and `misread` is then
//! false everywhere: what a chapter says stands beside the question. They show
//! which sentences the stored scripts and trails hold the device to.

use crate::tables::field::*;
use std::sync::OnceLock;

macro_rules! labels {
    ($($label:ident $meaning:literal)*) => {
        #[derive(Clone, Copy, Debug, PartialEq, Eq)]
        pub enum Label {
            $($label,)*
            /// A field of CMD_INFO in one form of command.
            InForm(Form, u32, How),
            /// A field of CMD_INFO with the next higher type.
            OtherType(u32),
            /// A field of CMD_INFO with its bytes in the other order.
            OtherOrder(u32),
        }

        const PLAIN: &[(Label, &str, &str)] = &[$((Label::$label, stringify!($label), $meaning)),*];
    };
}

labels! {
    // The device we rent out
    FreshPorts0 "a device of 0 ports is made"
    FreshPorts1Refused "a device of 1 port is refused"
    FreshPorts62Refused "a device of 62 ports is refused"
    FreshPorts63 "a device of 63 ports is made"
    FreshPortsBy32Bits "a port count is taken by its low 32 bits"
    SwitchIdBy32Bits "the switch ID has 32 bits"
    FreshLinksUp "a fresh device has its links up"
    FreshEnabled "a fresh device has its ports enabled"
    LinkNeverDown "a link that is up stays up"
    LinkOthersDown "a link that goes up takes the others down"
    Port0Taken "link and frame take port 0"
    Port1Refused "link and frame refuse port 1"
    PortCountRefused "link and frame refuse the last port"
    PortAboveTaken "link and frame take the port after the last"
    PortBy32Bits "link and frame take the low 32 bits of a port"
    ResetDropsPorts "a device reset leaves one port"
    ResetDropsLinks "a device reset takes the links down"
    ResetDropsSwitchId "a device reset zeroes the switch ID"
    ResetKeepsFlows "a device reset keeps the flows"
    ResetKeepsGroups "a device reset keeps the groups"
    ResetKeepsEnable "a device reset keeps PORT_PHYS_ENABLE"
    ResetKeepsTest "a device reset keeps TEST_REG"
    ResetKeepsTest64 "a device reset keeps TEST_REG64"
    ResetKeepsHolds "a device reset keeps the holds"
    ResetKeepsBase "a device reset keeps BASE_ADDR"
    ResetKeepsSize "a device reset keeps SIZE"
    ResetKeepsHead "a device reset keeps HEAD and TAIL"
    ResetKeepsCredits "a device reset keeps CREDITS"
    BufferWraps "the end of BUF_SIZE bytes wraps at 64 bits"
    BufferBy32Bits "BUF_ADDR is taken by its low 32 bits"
    BufferEndsBefore "a buffer that ends with the memory is outside"
    BufferEmptyAnywhere "a buffer of no bytes is inside wherever it stands"
    DescriptorWraps "the end of a descriptor wraps at 64 bits"
    DescriptorBy32Bits "the address of a descriptor is taken by its low 32 bits"
    DescriptorEndsBefore "a descriptor that ends with the memory is outside"
    DescriptorStartsInside "a descriptor that only starts in the memory is inside"

    // Answer numbers
    ValueBeforeAccess "a value that is not allowed is told before an access that is not"
    CreditsBeforeIdle "answer 4 comes before 3"
    DescriptorBeforeIdle "answer 5 comes before 3"
    RoomBeforeIdle "answer 6 comes before 3"
    DescriptorBeforeCredits "answer 5 comes before 4"
    RoomBeforeCredits "answer 6 comes before 4"
    RoomBeforeDescriptor "answer 6 comes before 5"
    FrameBeforePort "answer 8 comes before 7"
    ListBeforePort "answer 9 comes before 7"
    ListBeforeFrame "answer 9 comes before 8"
    Credits65535Full "answer 4 is given at 65,535 credits"
    Credits65536Taken "a slot is consumed at 65,536 credits"
    RoomOneMore "the room has to be longer than the line"
    RoomPayloadOnly "the room has to hold the payload alone"
    HeaderRoomOneMore "the header's room has to be longer than the header"
    ListOf557Taken "a list of 557 numbers is long enough"
    ListOf558Refused "a list of 558 numbers is too short"
    ListByCopies "the list only has to hold the copies there are"
    RefusedHeadMoves "a refused HEAD is written all the same"
    RefusedSizeMovesHead "a refused SIZE sets HEAD and TAIL to 0"
    RefusedBaseMovesHead "a refused BASE_ADDR sets HEAD and TAIL to 0"
    RefusedCreditsTaken "a refused CREDITS write takes all credits off"
    RefusedRoomConsumes "a slot whose line has no room is consumed"
    RefusedRoomStamps "a slot whose line has no room is stamped"
    RefusedRoomExecutes "a slot whose line has no room is carried out"

    // Registers
    Width2Taken "accesses of 2 bytes are taken"
    FourBytesAt2 "4 bytes at a multiple of 2 are taken"
    EightBytesAt4 "8 bytes at a multiple of 4 are taken"
    SpaceEndsAt1ffb "the last 4 bytes of the space are outside"
    SpaceGoesOn "0x2000 is inside"
    OffsetBy32Bits "an offset is taken by its low 32 bits"
    WidthBy32Bits "a width is taken by its low 32 bits"
    EightBytesOverFour "8 bytes over a register of 4 are taken"
    EightBytesOverTest "8 bytes over TEST_REG and what is reserved behind it are taken"
    EightBytesReserved "8 bytes over reserved places get answer 1"
    EightBytesBogus "8 bytes at 0x0000 and 0x0008 get answer 1"
    TestAt14 "TEST_REG stands at 0x0014"
    Test64At20 "TEST_REG64 stands at 0x0020"
    ControlCountSwapped "CONTROL stands at 0x0304, PORT_PHYS_COUNT at 0x0300"
    LinkEnableSwapped "PORT_PHYS_ENABLE stands before PORT_PHYS_LINK_STATUS"
    SwitchIdAt328 "SWITCH_ID stands at 0x0328"
    SizeHeadSwapped "HEAD stands before SIZE"
    HeadTailSwapped "TAIL stands before HEAD"
    CtrlCreditsSwapped "CREDITS stands before CTRL"
    RingAt1020 "ring 0 begins at 0x1020"
    BogusBeef "0x0000 to 0x000f read 0xDEADBEEF"
    BogusOnce "8 bytes at 0x0000 show 0xDEADBABE once"
    BogusEightBytes "only 0x0000 to 0x0007 show 0xDEADBABE"
    BogusWritten "a write at 0x0000 is one of TEST_REG"
    TestOnce "TEST_REG shows the value written"
    TestSaturates "TEST_REG shows at most its greatest number"
    TestCarries "TEST_REG shows twice the value in 33 bits"
    Test64Once "TEST_REG64 shows the value written"
    Test64ByHalves "TEST_REG64 has each half doubled alone"
    Test64HalfDoubled "a half read of TEST_REG64 doubles that half"
    ControlAnyBit "any bit of CONTROL resets the device"
    ControlReads1 "CONTROL reads 1"
    CtrlReads1 "CTRL reads 1"
    CtrlAnyBit "any bit of CTRL resets the ring"
    PortCountWritten "PORT_PHYS_COUNT is written"
    LinkStatusWritten "PORT_PHYS_LINK_STATUS is written"
    SwitchIdWritten "SWITCH_ID is written"
    TailWritten "TAIL is written"
    ReadOnlyRefused "a write to a read-only place gets answer 1"
    ReservedRefused "an access to a reserved place gets answer 1"
    LinkStatusFromBit0 "bit p - 1 of PORT_PHYS_LINK_STATUS stands for port p"
    LinkStatusEnabled "PORT_PHYS_LINK_STATUS shows enabled ports only"
    EnableFromBit0 "bit p - 1 of PORT_PHYS_ENABLE stands for port p"
    EnableKeepsBit0 "PORT_PHYS_ENABLE keeps bit 0"
    EnableKeepsHighBits "PORT_PHYS_ENABLE keeps bits above the port count"
    EnableRefusesBits "PORT_PHYS_ENABLE refuses bits of no port"
    OneHold "all 64-bit registers share one hold"
    LowerWrites "a write of the lower half writes the register"
    UpperTakesOldLower "a write of the upper half keeps the register's lower half"
    UpperKeepsHold "an accepted upper write keeps the hold"
    EightBytesKeepHold "an accepted 8-byte write keeps the hold"
    RefusedUpperClearsHold "a refused upper write clears the hold"
    RefusedEightBytesClearHold "a refused 8-byte write clears the hold"
    HoldShown "a read of the lower half shows the hold"
    Over32BitsRefused "a 4-byte write of more than 32 bits gets answer 2"
    LowerBaseChecked "a lower half of BASE_ADDR is refused unless a multiple of 8"
    LowerBaseMovesHead "a lower half of BASE_ADDR sets HEAD and TAIL to 0"
    UpperBaseKeepsHead "an upper half of BASE_ADDR leaves HEAD and TAIL"
    BaseOf4 "BASE_ADDR may be a multiple of 4"
    BaseOf16 "BASE_ADDR must be a multiple of 16"
    BaseOf32 "BASE_ADDR must be a multiple of 32"
    BaseKeepsHead "BASE_ADDR leaves HEAD"
    BaseKeepsTail "BASE_ADDR leaves TAIL"
    BaseDropsCredits "BASE_ADDR zeroes CREDITS"
    BaseDropsSize "BASE_ADDR zeroes SIZE"
    Size0Taken "SIZE 0 is accepted"
    Size1Taken "SIZE 1 is accepted"
    Size2Refused "SIZE 2 is refused"
    Size65536Refused "SIZE 65,536 is refused"
    Size131072Taken "SIZE 131,072 is accepted"
    SizeAnyNumber "SIZE need not be a power of two"
    SizeKeepsHead "SIZE leaves HEAD"
    SizeKeepsTail "SIZE leaves TAIL"
    SizeSameKeepsHead "SIZE written as it is leaves HEAD and TAIL"
    SizeDropsCredits "SIZE zeroes CREDITS"
    SizeDropsBase "SIZE zeroes BASE_ADDR"
    SizeDropsHold "SIZE clears the hold of BASE_ADDR"
    CtrlKeepsBase "CTRL keeps BASE_ADDR"
    CtrlKeepsHold "CTRL keeps the hold of BASE_ADDR"
    CtrlDropsOtherHolds "CTRL clears the holds of other registers"
    CtrlKeepsSize "CTRL keeps SIZE"
    CtrlKeepsHead "CTRL keeps HEAD"
    CtrlKeepsTail "CTRL keeps TAIL"
    CtrlKeepsCredits "CTRL keeps CREDITS"
    CtrlResetsDevice "CTRL empties the tables"
    HeadOnlyBelowSize "HEAD is tested against SIZE alone"
    HeadFillsRing "SIZE slots may be outstanding"
    HeadLeavesTwo "SIZE - 2 slots may be outstanding"
    HeadAtSize "HEAD may be SIZE"
    HeadNeverBack "HEAD may not be below the old one"
    HeadWithoutSize "HEAD 0 is accepted without a SIZE"
    HeadSameRefused "an unchanged HEAD is refused"
    HeadSameIsWork "an unchanged HEAD posts the last slot again"
    HeadMovesByOne "a HEAD write posts one slot"
    HeadBy16Bits "HEAD is taken by its low 16 bits"
    CreditsAllRefused "all of the credits cannot be returned at once"
    CreditsOverTakesAll "returning more than CREDITS takes all off"
    CreditsWriteSets "a CREDITS write sets CREDITS"
    CreditsWriteDrops "a CREDITS write takes all off"
    CreditsRaiseAlways "a CREDITS write always raises vector 0"
    CreditsRaiseNever "a CREDITS write never raises vector 0"
    CreditsRaiseAtNone "a CREDITS write raises vector 0 when none remain"
    CreditsOfNoneQuiet "a CREDITS write of 0 raises no vector"

    // Work: one slot
    DescriptorsOf16 "descriptors stand 16 bytes apart"
    DescriptorAtHead "the descriptor of HEAD - 1 is taken"
    SizesSwapped "TLV_SIZE stands before BUF_SIZE"
    BufAddrAfterCookie "BUF_ADDR stands behind COOKIE"
    SizesBigEndian "BUF_SIZE and TLV_SIZE are big-endian"
    Bit15Idle "a descriptor that has bit 15 set is not taken"
    StampWithoutBit15 "COMP_ERR becomes the code alone"
    StampKeepsBits "COMP_ERR keeps the bits that it had"
    StampAt28 "COMP_ERR stands at 28"
    StampBigEndian "COMP_ERR is stamped big-endian"
    StampClearsReserved "the stamp clears the reserved bytes"
    StampOnlyOk "only OK is stamped"
    BufAddrOf4 "BUF_ADDR may be a multiple of 4"
    BufAddrAnywhere "BUF_ADDR may be any number"
    BufAddrOf16 "BUF_ADDR must be a multiple of 16"
    EnxioByTlvSize "the buffer's end is tested with TLV_SIZE"
    TlvSizeEqualRefused "TLV_SIZE equal to BUF_SIZE is EINVAL"
    TlvSizeCut "TLV_SIZE over BUF_SIZE is cut to it"
    TlvSize4096Refused "TLV_SIZE 4,096 is EMSGSIZE"
    TlvSize4097Taken "TLV_SIZE 4,097 is carried out"
    EmsgsizeByBufSize "BUF_SIZE over 4,096 is EMSGSIZE"
    EinvalBeforeEnxio "TLV_SIZE over BUF_SIZE comes before the address"
    EmsgsizeBeforeEnxio "TLV_SIZE over 4,096 comes before the address"
    EmsgsizeBeforeEinval "TLV_SIZE over 4,096 comes before BUF_SIZE"
    EnxioRecords "an ENXIO line has the payload"
    EinvalRecords "a line of TLV_SIZE over BUF_SIZE has the payload"
    EmsgsizeRecords "an EMSGSIZE line has the payload"
    PayloadByBufSize "the payload has BUF_SIZE bytes"
    TrailAfterStamp "the payload is read for the line after the stamp"
    ExecuteAfterStamp "the payload is read and carried out after the stamp"
    TailWithoutModulo "TAIL advances past SIZE"
    TailToHead "TAIL goes to HEAD"
    CreditsOnlyOk "CREDITS rises for OK alone"
    WorkRaisesAlways "every consumed slot raises vector 0"
    WorkRaisesNever "a consumed slot raises no vector"
    WorkRaisesOnlyOk "only OK raises vector 0"
    OtherEnoent "ENOENT is 3"
    OtherEnxio "ENXIO is 5"
    OtherEnomem "ENOMEM is 28"
    OtherEexist "EEXIST is 16"
    OtherEinval "EINVAL is 14"
    OtherEmsgsize "EMSGSIZE is 27"
    OtherEnotsup "ENOTSUP is 38"

    // TLV regions and commands
    TopTypeBy16Bits "the top compares the low 16 bits of types"
    InfoTypeBy16Bits "CMD_INFO compares the low 16 bits of types"
    MemberTypeBy16Bits "GROUP_IDS compares the low 16 bits of types"
    TypeBy8Bits "types are compared by 8 bits"
    TypeBigEndian "types are big-endian"
    LengthBigEndian "lengths are big-endian"
    LengthTakesPad "the pad belongs to the length"
    PadZero "the pad must be 0"
    FillZero "the fill must be 0"
    FillTo4 "values are filled up to a multiple of 4"
    FillNone "values are not filled up"
    FillAlways "a value that is a multiple of 8 is filled with 8 more"
    LastFillMissing "the last TLV may lack its fill"
    RestSkipped "fewer than 8 bytes at a region's end are skipped"
    RestOf4Skipped "4 bytes at a region's end are skipped"
    OverlongCut "a TLV that goes over the region's end is cut"
    EmptyValueRefused "a TLV without a value is ill formed"
    Type0Ends "type 0 ends a region"
    TopUnlistedRefused "an unlisted type at the top is EINVAL"
    InfoUnlistedRefused "an unlisted type in CMD_INFO is EINVAL"
    TopTwiceFirst "of a type twice at the top the first counts"
    TopTwiceLast "of a type twice at the top the last counts"
    InfoTwiceLast "of a type twice in CMD_INFO the last counts"
    TwiceEqualTaken "a type twice with equal values is taken"
    CmdTypeWider "CMD_TYPE may be wider"
    CmdTypeNarrower "CMD_TYPE may have one byte"
    CmdTypeBigEndian "CMD_TYPE is big-endian"
    CmdTypeBy8Bits "CMD_TYPE is taken by its low 8 bits"
    CmdTypeFirst "CMD_TYPE must come before CMD_INFO"
    CmdInfoMissing "CMD_INFO may be missing"
    CmdInfoWidth "a CMD_INFO that is no multiple of 8 is a top fault"
    FlowModDelSwapped "4 is flow del, 5 flow mod"
    GroupModDelSwapped "8 is group del, 9 group mod"
    GroupCommandsFrom6 "6, 7, 8 are group add, mod, del"
    Command6 "6 is a flow command that does nothing"
    UnknownEinval "an unknown CMD_TYPE is EINVAL"
    UnknownBeforeTop "an unknown CMD_TYPE comes before the other top faults"
    NestBeforeUnknown "an ill-formed nest comes before an unknown CMD_TYPE"
    TableBeforeNest "a TBL that is not there comes before an ill-formed nest"
    TableBeforeForm "a TBL that is not there comes before its wrong form"
    TableEinval "a TBL that is not there is EINVAL"
    TableMissingEnotsup "a missing TBL is ENOTSUP"
    FieldsBeforeTable "faults of other fields come before a TBL that is not there"
    KeyBeforeFields "EEXIST and ENOENT come before bad fields"
    FullBeforeFields "ENOMEM comes before bad fields"
    FullBeforeKey "ENOMEM comes before EEXIST"
    ModWhenFull "mod is ENOMEM when the table is full"
    Table40Taken "TBL 40 is taken as 30"
    Table60Taken "TBL 60 is taken as 50"
    Flows255 "ENOMEM comes at 255 flows"
    Flows257 "ENOMEM comes at 257 flows"
    Groups127 "ENOMEM comes at 127 groups"
    Groups129 "ENOMEM comes at 129 groups"
    FullBySum "flows and groups count together"
    AddReplaces "add of a live key replaces it"
    ModAdds "mod of no live key adds it"
    DelOfNoneOk "del of no live key is OK"
    DelAll "del takes all flows or groups"
    DelNeedsTable "flow del needs a TBL that is there"
    DelLooksAtTable "a TBL given to flow del must be one that is there"
    DelComparesTable "a TBL given to flow del must be the flow's"
    DelComparesPriority "a PRIORITY given to flow del must be the flow's"
    CookieByTable "a cookie is a key in its table only"
    CookieBy32Bits "the cookie's low 32 bits are the key"
    CookieZeroRefused "cookie 0 is EINVAL"
    ModKeepsTable "mod to another table is EINVAL"
    ModKeepsPriority "mod keeps PRIORITY"
    ModKeepsGoto "mod keeps GOTO_TBL"
    ModKeepsMatch "mod keeps what the flow compares"
    ModKeepsMac "mod without DST_MAC keeps the old one"
    ModKeepsGroup "mod without GROUP_ID keeps the old one"
    TimesRequired "the two times are required"
    TimesExpire "a flow with a HARDTIME above 0 is gone at once"
    Goto0Refused "GOTO_TBL 0 is EINVAL"
    GotoAnyTable "GOTO_TBL may be any of the tables"
    Table0Goto50 "table 0 may go to 50"
    Table0Goto20 "table 0 may go to 20"
    Table0PortRange "IN_PPORT of table 0 must be 1 to the port count"
    Table0MaskCovers "IN_PPORT of table 0 may have no bits outside the mask"
    Table0MaskNot0 "IN_PPORT_MASK 0 is EINVAL"
    Table10Port0 "table 10 takes IN_PPORT 0"
    Table10Port1Refused "table 10 refuses IN_PPORT 1"
    Table10LastPortRefused "table 10 refuses the last port"
    Table10PortAbove "table 10 takes the port after the last"
    Table10PortBy16Bits "table 10 takes the low 16 bits of IN_PPORT"
    Table10Vlan0Refused "table 10 refuses VLAN_ID 0"
    Table10Vlan1Refused "table 10 refuses VLAN_ID 1"
    Table10Vlan4094Refused "table 10 refuses VLAN_ID 4094"
    Table10Vlan4095 "table 10 takes VLAN_ID 4095"
    Table10Goto50 "table 10 may go to 50"
    Table10Goto10 "table 10 may go to 10"
    VlanBy12Bits "VLAN_ID is taken by its low 12 bits"
    NewVlanOptional "NEW_VLAN_ID may be missing where VLAN_ID is 0"
    NewVlanAlways "NEW_VLAN_ID may be there where VLAN_ID is not 0"
    NewVlanRequired "NEW_VLAN_ID must be there whatever VLAN_ID is"
    NewVlan0 "NEW_VLAN_ID 0 is taken"
    NewVlan1Refused "NEW_VLAN_ID 1 is refused"
    NewVlan4094Refused "NEW_VLAN_ID 4094 is refused"
    NewVlan4095 "NEW_VLAN_ID 4095 is taken"
    Table50Vlan0 "table 50 takes VLAN_ID 0"
    Table50Vlan1Refused "table 50 refuses VLAN_ID 1"
    Table50Vlan4094Refused "table 50 refuses VLAN_ID 4094"
    Table50Vlan4095 "table 50 takes VLAN_ID 4095"
    Table50Goto20 "table 50 may go to 20"
    Table50MacRequired "table 50 needs DST_MAC"
    Table50GroupRequired "table 50 needs GROUP_ID"
    Table50NewVlan "NEW_VLAN_ID, where given, is read for table 50"
    Table50OtherVlan "a flow's group may have another VLAN"
    Table50GroupExists "a flow's group must exist"
    Table50LowBits "a flow's group of type 0 has low bits up to the port count"
    EvenMacType3 "type 3 goes with an even first MAC byte"
    EvenMacType4 "type 4 goes with an even first MAC byte"
    OddMacType0 "type 0 goes with an odd first MAC byte"
    OddMacType3Refused "type 3 does not go with an odd first MAC byte"
    OddMacType4Refused "type 4 does not go with an odd first MAC byte"
    NoMacType0 "type 0 goes without DST_MAC"
    NoMacType3 "type 3 goes without DST_MAC"
    NoMacType4Refused "type 4 does not go without DST_MAC"
    MacByLastByte "the last MAC byte is the one that is even or odd"
    MacBroadcastOnly "only ff ff ff ff ff ff is odd"
    GroupType1 "group type 1 is taken as a list"
    GroupType5 "group type 5 is taken as a list"
    GroupTypeBy2Bits "the type of a group stands in bits 29 and 28"
    GroupTypeBy3Bits "the type of a group stands in bits 30 to 28"
    GroupVlan0 "a group of VLAN 0 is taken"
    GroupVlan1Refused "a group of VLAN 1 is refused"
    GroupVlan4094Refused "a group of VLAN 4094 is refused"
    GroupVlan4095 "a group of VLAN 4095 is taken"
    GroupLowBy8Bits "the port stands in bits 7 to 0"
    GroupDelAnyType "group del takes any type"
    GroupDelAnyVlan "group del takes any VLAN"
    GroupDelLowBits "group del looks at the low bits' range"
    GroupDelInUse "group del of a group that a flow names is EINVAL"
    GroupDelDropsFlows "group del takes the flows that name it along"
    GroupDelDropsMembers "group del takes the ID out of member lists"
    OutPportAny "OUT_PPORT need not equal the low bits"
    OutPportBy16Bits "OUT_PPORT is compared by its low 16 bits"
    OutPport0Refused "OUT_PPORT 0 is refused"
    OutPport1Refused "OUT_PPORT 1 is refused"
    OutPportLastRefused "OUT_PPORT may not be the last port"
    OutPportAbove "OUT_PPORT may be the port after the last"
    OutPport62 "OUT_PPORT may be up to 62 whatever the port count"
    OutPportForLists "OUT_PPORT, where given, is read for types 3 and 4"
    PopForLists "POP_VLAN, where given, is read for types 3 and 4"
    CountForType0 "GROUP_COUNT, where given, is read for type 0"
    Pop2 "POP_VLAN 2 is taken"
    Pop255 "POP_VLAN above 2 is taken"
    Pop1Refused "POP_VLAN must be 0"
    Count0 "GROUP_COUNT 0 with an empty GROUP_IDS is taken"
    Count1Refused "GROUP_COUNT 1 is refused"
    Count62Refused "GROUP_COUNT 62 is refused"
    Count63 "GROUP_COUNT 63 is taken"
    CountIgnored "GROUP_COUNT need not be the number of members"
    CountAtLeast "more members than GROUP_COUNT are taken"
    CountAtMost "fewer members than GROUP_COUNT are taken"
    CountByPorts "GROUP_COUNT is at most the port count"
    MembersBigEndian "members are big-endian"
    MembersFrom0 "the k-th member has type k - 1"
    MembersAnyType "members have any type"
    MembersAnyOrder "members have the types from 1 in any order"
    MembersSkip "other types among the members are skipped"
    MembersWider "a member may be wider than 4"
    MembersIllFormed "an ill-formed GROUP_IDS is cut where it is ill formed"
    MembersTwice "members need not be distinct"
    MembersNeighbours "only neighbours among the members must be distinct"
    MembersAnyGroupType "members have any group type"
    MembersSameType "members have the type of their group"
    MembersAnyVlan "members have any VLAN"
    MembersExist "members must exist"
    MembersLowBits "members have low bits up to the port count"
    MembersHostRefused "the host may be no member"
    Type4Sorted "members of type 4 must rise"
    GroupModKeepsPop "group mod keeps POP_VLAN"
    GroupModAddsMembers "group mod adds its members to the old ones"
    GroupModKeepsMembers "group mod keeps the members"

    // A frame's way
    Frame13 "13 bytes are a frame"
    Frame14Refused "14 bytes are no frame"
    Frame9216Refused "9,216 bytes are no frame"
    Frame9217 "9,217 bytes are a frame"
    Frame1518 "a frame has at most 1,518 bytes"
    FrameTagged17 "17 bytes are a frame with a tag"
    FrameTagged18Refused "18 bytes are no frame with a tag"
    FrameUntagged18 "18 bytes are needed without a tag too"
    TagOf9100 "91 00 is a tag"
    TagOf88a8 "88 a8 is a tag"
    TagBy81 "81 and any second byte is a tag"
    TagLittleEndian "00 81 is the tag, and 81 00 is not"
    TagNone "no frame has a tag"
    FrameVlanBy16Bits "a frame's VLAN has 16 bits"
    FrameVlanBy13Bits "a frame's VLAN has 13 bits"
    FrameVlanLittleEndian "a frame's VLAN is little-endian"
    IngressDown "frames come in on a port that is down"
    IngressNotEnabled "frames come in on a port that is not enabled"
    PriorityLowest "the lowest PRIORITY decides"
    PriorityIgnored "the lower cookie decides whatever the PRIORITY"
    PrioritySigned "PRIORITY is a signed number"
    TiesToHigherCookie "ties go to the higher cookie"
    TiesToFirstAdded "ties go to the flow added first"
    TiesToLastAdded "ties go to the flow added last"
    TiesBySignedCookie "cookies are signed numbers in ties"
    DropNext "a flow with GOTO_TBL 0 leaves it to the next that matches"
    NoGroupNext "a flow without group leaves it to the next that matches"
    MissingGroupNext "a flow whose group is missing leaves it to the next that matches"
    MaskOnPortOnly "table 0 masks the port only"
    MaskOnFlowOnly "table 0 masks IN_PPORT only"
    MaskIgnored "table 0 compares without the mask"
    MaskInverted "bits of the mask are those not compared"
    Table0MissDrops "a miss in table 0 drops"
    Table0DropPasses "GOTO_TBL 0 of table 0 goes on"
    Table0Ignored "table 0 is passed through"
    Table10MissPasses "a miss in table 10 goes on"
    Table10DropPasses "GOTO_TBL 0 of table 10 goes on"
    Table10PortIgnored "table 10 compares the VLAN only"
    Table10VlanIgnored "table 10 compares the port only"
    Table10UntaggedAny "VLAN_ID 0 of table 10 matches any VLAN"
    NewVlanIgnored "a frame without VLAN keeps VLAN 0"
    Table60Drops "table 60, being empty, drops"
    Table50MissFloods "a miss in table 50 takes a group of type 4 of the VLAN"
    Table50DropPasses "GOTO_TBL 0 of table 50 goes on"
    Table50MacIgnored "table 50 compares the VLAN only"
    Table50VlanIgnored "table 50 compares DST_MAC only"
    Table50SourceMac "table 50 compares the source MAC"
    Table50MacNeeded "a flow without DST_MAC matches nothing"
    Table50MacFirst "a flow with DST_MAC comes before those without"
    Table50LastMacByteFree "table 50 compares 5 bytes of DST_MAC"
    CopyVlanFirst "a copy is VLAN, port, POP_VLAN and the MACs"
    CopyToIngress "bridged copies go to the ingress port too"
    CopyToDown "copies go to ports that are down"
    CopyToNotEnabled "copies go to ports that are not enabled"
    CopyHostLeftOut "the host's copies are left out"
    CopyHostLast "the host's copy comes last"
    CopiesByPort "copies come in the order of their ports"
    CopiesOnePerGroup "a list gives its first member only"
    CopyOfMissingMember "a missing member gives a copy"
    MissingMemberEnds "a missing member ends the list"
    CopyVlanOfFrame "a copy has the VLAN that the frame came with"
    CopyPopOfNone "a copy of a frame without tag has POP_VLAN 0"
    CopyPop0 "copies of a list have POP_VLAN 0"

    // The console's lines (docs/CONSOLE.md)
    CrKept "a CR before the LF is part of the line"
    CrsAllTaken "all CRs before the LF are no part of the line"
    CrNotCounted "the CR before the LF does not count to the length of a line"

    // The trail
    HeaderVersionBigEndian "the version is written big-endian"
    HeaderVersionOneByte "the version has 1 byte"
    HeaderPorts2Bytes "the port count has 2 bytes"
    HeaderPortsLess1 "the header has the last port's index"
    LineBigEndian "the numbers of a line are big-endian"
    LineLengthFirst "the line begins with the payload length"
    LineSlotFirst "the line begins with the slot"
    LineCodeOnly "the line has the code without bit 15"
    LineSlotNext "the line has the slot that comes next"
    LineLengthOfLine "the line's length counts its first 6 bytes too"
    LineEmptyUnlessOk "only OK lines have their payload"
    ReplayCodeOnly "replay compares the code without bit 15"
    ReplayLow15Bits "replay leaves out bit 15"
    ReplayAnyStatus "replay compares no status"
    ReplayOkOrNot "replay compares whether a status is OK"
    ReplayEnxioPayload "an ENXIO line may have a payload"
    ReplayEmsgsizePayload "an EMSGSIZE line may have a payload"
    ReplayEnxioCarriedOut "an ENXIO line is carried out"
    ReplayEinvalEmpty "an EINVAL line must be empty"
    ReplayEmptyEinvalOnly "a line without payload must be ENXIO or EMSGSIZE"
    ReplayLongTaken "a payload length over 4,096 is carried out"
    Replay4096Refused "a payload length of 4,096 disagrees"
    ReplayLongBeforeCut "a payload length over 4,096 disagrees before the line is cut"
    ReplayStatusBeforeCut "a line that is cut in its payload disagrees"
    ReplayRestSkipped "fewer than 6 bytes at the end are skipped"
    ReplayCutSkipped "a line that is cut is left out"
    ReplayLowestFault "the lowest fault of all lines decides"
    ReplayHeaderCutBefore "a header of 5 bytes and a port count of 1 is whole"
    ReplayMarkBeforeCut "another mark comes before a cut header"
    ReplayVersionBeforeMark "the version comes before the mark"
    ReplayPortsBeforeVersion "the port count comes before the version"
    ReplayMarkOf2 "two bytes of the mark are compared"
    ReplayMarkAnyCase "the mark may have small letters"
    ReplayVersionLow "the low byte of the version is compared"
    ReplayVersion0 "version 0 is taken"
    ReplayPorts0 "a port count of 0 is taken"
    ReplayPorts1Refused "a port count of 1 is refused"
    ReplayPorts62Refused "a port count of 62 is refused"
    ReplayPorts63 "a port count of 63 is taken"
    ReplayPortsIgnored "replay has 62 ports"
    ReplaySlotChecked "the slots must rise from 0"
    ReplayLinesFrom0 "lines count from 0"
    ReplayHeaderIsLine1 "the header is line 1"
    ChargedLines "every line is charged"
    ChargedUnlessFault "lines without payload are not charged, others are"
    ChargedChanges "charged is what the tables hold"
    LinesOfPayload "lines without payload are not counted"

    // Request 2026-02: "the 8 header bytes plus the value"
    DeviceOld "the device obeys lengths that count the value alone"
    DeviceEither "the device obeys what is EINVAL with the old meaning too"
    TopOld "at the top lengths count the value alone"
    InfoOld "in CMD_INFO lengths count the value alone"
    MembersOld "in GROUP_IDS lengths count the value alone"
    NestOld "the length of CMD_INFO or GROUP_IDS counts the value alone"
    UnlistedOld "the length of an unlisted type counts the value alone"
    LengthWithoutPad "the length counts 6 header bytes, without the pad"
    WidthByLength "the width of a field is that of the length, header and all"
    FillByLength "a TLV takes 8 bytes and its length, filled up"
    NestTakesHead "a nest begins with its own header"
    OverlongByHeadCut "a TLV that goes over the region's end by up to 8 bytes is cut"

    // Request 2026-02: "a length under 8 is ill formed"
    Length0Empty "a length of 0 is a TLV without a value"
    Length0TopEmpty "a length of 0 at the top is a TLV without a value"
    Length0Ends "a length of 0 ends a region"
    Length7Empty "a length of 7 is a TLV without a value"
    Length8Refused "a length of 8 is ill formed"
    Under8Empty "a length under 8 is a TLV without a value"
    Under8TopEmpty "a length under 8 at the top is a TLV without a value"
    Under8InfoEmpty "a length under 8 in CMD_INFO is a TLV without a value"
    Under8UnlistedEmpty "a length under 8 is ill formed in listed types only"
    Under8Old "a length under 8 counts the value alone"
    Under8MembersOld "a length under 8 in GROUP_IDS counts the value alone"
    Under8Skipped "a TLV of a length under 8 is skipped, whatever its type"
    Under8MembersSkipped "a TLV of a length under 8 in GROUP_IDS is skipped"
    Under8Ends "a length under 8 ends a region"
    InfoUnder8BeforeUnknown "a length under 8 in CMD_INFO comes before an unknown CMD_TYPE"
    TableBeforeUnder8 "a TBL that is not there comes before a length under 8 in CMD_INFO"
    KeyBeforeMembersUnder8 "EEXIST and ENOENT come before a length under 8 in GROUP_IDS"

    // Request 2026-02: "New trails carry version 2; version 1 trails are still read"
    HeaderVersion1 "the version written is 1"
    LineLengthTakesHead "the line's length counts 8 bytes more than its payload has"
    ReplayVersionsAbove "versions above 3 are taken"
    ReplayVersionBigEndian "the version is read big-endian"
    ReplayVersion1Refused "version 1 is refused"
    ReplayVersion2Refused "version 2 is refused"
    ReplayVersion1New "version 1 is read with lengths that count the header"
    ReplayVersion2Old "version 2 is read with lengths that count the value alone"
    ReplayEitherMeaning "a line may agree with either meaning of lengths"
    OldTopNew "at the top of version 1 lengths count the header"
    OldInfoNew "in CMD_INFO of version 1 lengths count the header"
    OldMembersNew "in GROUP_IDS of version 1 lengths count the header"
    OldNestNew "in version 1 the length of CMD_INFO or GROUP_IDS counts the header"
    OldLength0Refused "a length of 0 is ill formed in version 1"
    OldUnder8Refused "a length under 8 is ill formed in version 1"

    // Request 2026-03: "Add tables 20 and 30 for IPv4 and IPv6, as the guide lists them, and group type 2"
    Table20Enotsup "TBL 20 is ENOTSUP"
    Table30Enotsup "TBL 30 is ENOTSUP"
    GroupType2Refused "group type 2 is EINVAL"
    EtherTypeAny "ETHERTYPE may be any number"
    EtherTypeIpv6Refused "ETHERTYPE 0x86DD is EINVAL"
    EtherType0806 "ETHERTYPE 0x0806 is taken as IPv4"
    EtherType8847 "ETHERTYPE 0x8847 is taken as IPv4"

    // Request 2026-03: "Table 20 compares IN_PPORT .., ETHERTYPE, DST_MAC and VLAN_ID .. without masks; its GOTO_TBL is 30"
    Table20Port0 "table 20 takes IN_PPORT 0"
    Table20Port1Refused "table 20 refuses IN_PPORT 1"
    Table20LastPortRefused "table 20 refuses the last port"
    Table20PortAbove "table 20 takes the port after the last"
    Table20AnyPort "table 20 takes any IN_PPORT"
    Table20PortBy16Bits "table 20 takes the low 16 bits of IN_PPORT"
    Table20Vlan0 "table 20 takes VLAN_ID 0"
    Table20Vlan1Refused "table 20 refuses VLAN_ID 1"
    Table20Vlan4094Refused "table 20 refuses VLAN_ID 4094"
    Table20Vlan4095 "table 20 takes VLAN_ID 4095"
    Table20MacEven "DST_MAC of table 20 has an even first byte"
    Table20MacNot0 "table 20 refuses a DST_MAC of zeros"
    Table20Masks "masks that are given to table 20 must have all bits set"
    Table20OutPport "OUT_PPORT, where given, must be 0 for table 20"
    Table20Goto0 "table 20 may have GOTO_TBL 0"
    Table20Goto40 "table 20 may go to 40"
    Table20Goto50 "table 20 may go to 50"
    Table20Goto60 "table 20 may go to 60"
    Table10Goto30 "table 10 may go to 30"
    Table20Ignored "table 20 is passed through"
    Table20MissDrops "a miss in table 20 drops"
    Table20PortIgnored "table 20 does not compare the port"
    Table20EtherTypeIgnored "table 20 does not compare the EtherType"
    Table20MacIgnored "table 20 does not compare the MAC"
    Table20VlanIgnored "table 20 does not compare the VLAN"
    Table20VlanOfFrame "table 20 compares the VLAN that the frame came with"
    Table20SourceMac "table 20 compares the source MAC"
    Table20LastMacByteFree "table 20 compares 5 bytes of DST_MAC"

    // Request 2026-03: "A miss in 30, or under 20 (IPv6 40) bytes after the EtherType, drops; a tagged frame's is bytes 16 and 17"
    Table30MissBridges "a miss in table 30 goes to 50"
    ShortBridged "a frame that is too short for table 30 goes to 50"
    Ipv4Of19 "19 bytes after the EtherType are enough for IPv4"
    Ipv4Of21 "20 bytes after the EtherType are too few for IPv4"
    Ipv4Of40 "IPv4 needs 40 bytes after the EtherType too"
    Ipv6Of20 "20 bytes after the EtherType are enough for IPv6"
    Ipv6Of39 "39 bytes after the EtherType are enough for IPv6"
    Ipv6Of41 "40 bytes after the EtherType are too few for IPv6"
    HeaderByFrame "the 20 or 40 bytes are those of the whole frame"
    HeaderTakesEtherType "the 20 or 40 bytes begin with the EtherType"
    HeaderAt14 "the bytes of a tagged frame are counted from byte 14 too"
    EtherTypeAt12 "the EtherType of a tagged frame is bytes 12 and 13"
    EtherTypeAt14 "the EtherType of a tagged frame is bytes 14 and 15"
    EtherTypeBehindTags "the EtherType stands behind a second tag"
    FrameEtherTypeLittleEndian "a frame's EtherType is little-endian"
    SourceAddress "table 30 compares the source address"
    IpVersionLooked "a frame of another IP version than its EtherType says is dropped"
    IpHeaderLooked "an IPv4 frame with options is dropped"
    TtlLooked "a frame with a TTL under 2 is dropped"
    FrameUnicast "a frame to a multicast address is dropped in table 30"

    // Request 2026-03: "Table 30 takes exactly the address and mask of its ETHERTYPE .., both sides compared under the mask"
    RouteMaskOnFrameOnly "table 30 masks the frame's address only"
    RouteMaskOnFlowOnly "table 30 masks the flow's address only"
    RouteMaskIgnored "table 30 compares whole addresses"
    RouteMaskInverted "bits of a mask of table 30 are those not compared"
    Table30EtherTypeIgnored "table 30 does not compare the EtherType"
    AddressBitsOutside "an address with bits outside its mask is EINVAL"
    RouteVlan "VLAN_ID, where given, is read for table 30"

    // Request 2026-03: "only prefix masks and unicast destinations (first byte under 224, IPv6 not FF)"
    MaskAny "a mask may be no prefix"
    MaskSuffix "a mask has zeros, then ones"
    MaskWholeBytes "a mask has whole bytes of ones"
    MaskAllRefused "a mask of all ones is EINVAL"
    Mask0Refused "a mask of no ones is EINVAL"
    MaskLastBitFree "the last bit of a mask is not looked at"
    MaskByFirst4Bytes "of an IPv6 mask the first 4 bytes are looked at"
    MulticastTaken "multicast destinations are taken"
    Ipv4First0Refused "an IPv4 address with first byte 0 is EINVAL"
    Ipv4First127Refused "an IPv4 address with first byte 127 is EINVAL"
    Ipv4First223Refused "an IPv4 address with first byte 223 is EINVAL"
    Ipv4First224Taken "an IPv4 address with first byte 224 is taken"
    Ipv4First240Taken "an IPv4 address with a first byte from 240 on is taken"
    Ipv4First255Taken "an IPv4 address with first byte 255 is taken"
    Ipv6First0Refused "an IPv6 address with first byte 0 is EINVAL"
    Ipv6First224Refused "an IPv6 address with a first byte from 224 on is EINVAL"
    Ipv6FirstFeRefused "an IPv6 address with first byte FE is EINVAL"
    Ipv6FirstFfTaken "an IPv6 address with first byte FF is taken"
    UnicastUnderMask "whether an address is unicast is asked under its mask"

    // Request 2026-03: "GOTO_TBL 60 or 0, an optional type 2 GROUP_ID"
    Table30Goto50 "table 30 may go to 50"
    Table30Goto0Refused "GOTO_TBL 0 of table 30 is EINVAL"
    Table30DropPasses "GOTO_TBL 0 of table 30 goes on"
    Table30DropBridges "GOTO_TBL 0 of table 30 goes to 50"
    RouteGroupRequired "table 30 needs GROUP_ID"
    RouteGroup0None "GROUP_ID 0 of table 30 is none"
    RouteGroupExists "a group that table 30 names must exist"
    RouteGroupType0 "table 30 may name a group of type 0"
    RouteGroupList "table 30 may name a group of type 3 or 4"
    RouteNoGroupNext "a route without group leaves it to the next that matches"
    RouteNoGroupBridges "a route without group goes to 50"
    RouteMissingGroupNext "a route whose group is missing leaves it to the next that matches"
    RouteMissingLowerNext "a route whose lower group is missing leaves it to the next that matches"
    ModKeepsRouteGroup "mod without GROUP_ID keeps that of a route"
    ModKeepsPrefix "mod keeps the address and mask of a route"

    // Request 2026-03: "the longest prefix decides before PRIORITY, then the lower cookie"
    PrefixShortest "the shortest prefix decides"
    PrefixIgnored "the prefix does not decide"
    PrefixByWholeBytes "prefixes are compared by whole bytes"
    PrefixUpTo32 "prefixes longer than 32 bits count as 32"
    PriorityBeforePrefix "PRIORITY decides before the prefix"
    PrefixThenCookie "the lower cookie decides right after the prefix"
    PrefixThenLowestPriority "of equal prefixes the lowest PRIORITY decides"
    RoutePrioritySigned "PRIORITY is a signed number in table 30"
    RouteTiesToHigherCookie "ties in table 30 go to the higher cookie"
    RouteTiesToFirstAdded "ties in table 30 go to the flow added first"

    // Request 2026-03: "Type 2, an index in bits 27 to 0, gives new source and destination MAC, a VLAN and a type 0 group of that VLAN"
    Type2AsksVlan "a group ID of type 2 has a VLAN from 1 to 4094"
    Type2VlanInId "a group ID of type 2 has the VLAN of VLAN_ID"
    Type2IndexBy16Bits "the index of type 2 has 16 bits"
    Type2Index0Refused "index 0 of type 2 is EINVAL"
    Type2DelAsksVlan "group del of type 2 asks for a VLAN in the ID"
    Type2DelRefused "group del of type 2 is EINVAL"
    Type2Vlan0 "type 2 takes VLAN_ID 0"
    Type2Vlan1Refused "type 2 refuses VLAN_ID 1"
    Type2Vlan4094Refused "type 2 refuses VLAN_ID 4094"
    Type2Vlan4095 "type 2 takes VLAN_ID 4095"
    Type2SourceEven "SRC_MAC of type 2 has an even first byte"
    Type2DestinationEven "DST_MAC of type 2 has an even first byte"
    Type2SourceNot0 "SRC_MAC of type 2 may not be zeros"
    Type2DestinationNot0 "DST_MAC of type 2 may not be zeros"
    Type2MacsDiffer "the MACs of type 2 must differ"
    Type2Pop "POP_VLAN, where given, is read for type 2"
    LowerType2 "a lower group may be of type 2"
    LowerList "a lower group may be of type 3 or 4"
    LowerAnyVlan "a lower group may have another VLAN"
    LowerExists "a lower group must exist"
    LowerLowBits "a lower group has low bits up to the port count"
    LowerHostRefused "a lower group may not be the host's"
    EvenMacType2 "type 2 goes with an even first MAC byte in table 50"
    MembersType2 "groups of type 2 may be members"
    GroupModKeepsLower "group mod keeps the lower group and the VLAN"
    GroupModKeepsSource "group mod keeps SRC_MAC"
    GroupModKeepsDestination "group mod keeps DST_MAC"
    GroupDelDropsType2 "group del takes the groups of type 2 above it along"

    // Request 2026-03: "a copy becomes nine 16-bit numbers (last six: source, destination MAC (N); 0 where bridged) and answer 9 asks for 558"
    ListOf186Taken "a list of 186 to 557 numbers is long enough"
    CopyMacsFirst "a copy begins with its MACs"
    CopyDestinationFirst "the destination MAC comes before the source MAC"
    CopyMacWordsReversed "the numbers of a MAC come from its end"
    CopyMacLittleEndian "the numbers of a MAC are little-endian"
    BridgedMacsOfFrame "a bridged copy has the MACs of the frame"
    RoutedSourceOfFrame "a routed copy keeps the source MAC"
    RoutedSourceOfRouter "a routed copy has the frame's destination MAC as its source"
    RoutedDestinationOfFrame "a routed copy keeps the destination MAC"
    RoutedWithoutMacs "a routed copy has no MACs"
    RoutedVlanOfFrame "a routed copy has the VLAN that the frame came with"
    RoutedPop0 "a routed copy has POP_VLAN 0"
    RoutedPop1 "a routed copy has POP_VLAN 1"
    CopyOfMissingLower "a missing lower group gives a copy"

    // Request 2026-03: "A routed frame may leave by its ingress port"
    RoutedNotToIngress "a routed copy to the ingress port is left out"
    RoutedToDown "routed copies go to ports that are down"
    RoutedToNotEnabled "routed copies go to ports that are not enabled"
    RoutedHostLeftOut "routed copies to the host are left out"

    // Request 2026-03: "New trails carry version 3; older ones have neither these tables nor type 2"
    HeaderVersion2 "the version written is 2"
    HeaderVersion4 "the version written is 4"
    ReplayVersion3Refused "version 3 is refused"
    ReplayVersion3As2 "version 3 is read as version 2"
    ReplayVersion4 "version 4 is taken"
    Version3LengthsOld "version 3 has lengths that count the value alone"
    Version1Routes "version 1 has tables 20 and 30 and type 2"
    Version2Routes "version 2 has tables 20 and 30 and type 2"
    OldTable20 "versions 1 and 2 have table 20"
    OldTable30 "versions 1 and 2 have table 30"
    OldTableEinval "TBL 20 and 30 are EINVAL in versions 1 and 2"
    OldType2 "versions 1 and 2 have type 2"
    OldType2Deleted "group del of type 2 is read in versions 1 and 2"
    OldType2Enotsup "type 2 is ENOTSUP in versions 1 and 2"

    // Request 2026-04: "one count of the ones"
    SizeTwoOnes "two ones within the range are a SIZE, too"
    SizeOddOnes "any odd count of ones within the range is a SIZE"
    SizeOneRun "ones that stand together count as one"
    SizeOneInEachByte "the ones of each byte of SIZE are counted alone"
    SizeLessOneCounted "the ones of SIZE less one are counted"
    SizeZerosCounted "the zeros of SIZE are counted"
    SizeCountedOnce "once there is a SIZE the range alone is tested"
    SizeEven "any even number within the range is a SIZE"

    // Request 2026-04: "and a range test"
    SizeAnyPower "any power of two is a SIZE"
    SizePowersAbove "powers of two above 65,536 are SIZEs"
    SizeAtMostOne "any number up to 65,536 that has at most one 1 is a SIZE"
    SizeCountOrRange "either of the count and the range is enough"
    SizeBy16Bits "SIZE is taken by its low 16 bits"
    SizeBy17Bits "SIZE is taken by its low 17 bits"
    SizeBy64Bits "SIZE is tested with all bits of the number handed in"
    SizeToNearestEnd "a power of two outside the range becomes the end next to it"

    // Request 2026-04: "Same answers"
    SizeRoundedDown "a SIZE within the range is rounded down to a power of two"
    SizeRoundedUp "a SIZE within the range is rounded up to a power of two"
    SizeRefusedBy1 "a SIZE that is not allowed gets answer 1"
    SizeCountRefusedBy1 "a SIZE of another count than one gets answer 1"
    RefusedSizeDone "a SIZE that is not allowed gets answer 0 and does nothing"

    // Request 2026-04: "nothing else moves"
    SizeIsCount "SIZE shows the count"
    SizeKeepsBoth "SIZE leaves HEAD and TAIL"
    RefusedSizeWritten "a refused SIZE is written all the same"
    RefusedSizeDropsHold "a refused SIZE clears the hold of BASE_ADDR"
    RefusedSizeDropsCredits "a refused SIZE zeroes CREDITS"
    HeadCounted "HEAD has one 1, too"
    BaseCounted "BASE_ADDR has one 1, too"
    BufSizeCounted "a BUF_SIZE that has not one 1 is EINVAL"

    // Request 2026-05: "keep the flows of each table .. in the order in which they decide": adds
    OrderAddLast "a flow that is added stands behind all of its table"
    OrderAddFirst "a flow that is added stands before all of its table"
    OrderAddBehindEquals "a flow that is added stands behind those of its PRIORITY and prefix"
    OrderAddBeforeEquals "a flow that is added stands before those of its PRIORITY and prefix"
    Order0AsAdded "the flows of table 0 stand as they were added"
    Order10AsAdded "the flows of table 10 stand as they were added"
    Order30AsAdded "the flows of table 30 stand as they were added"
    Order50AsAdded "the flows of table 50 stand as they were added"
    OrderEqualReplaced "a flow that is added takes the place of one of its PRIORITY and prefix"
    OrderEqualEexist "an add is EEXIST where its table has a flow of its PRIORITY and prefix"
    OrderEexistMoves "an add that is EEXIST moves the flow that is there"
    OrderEnomemDropsLast "an add that is ENOMEM pushes the last flow out of its table's order"
    OrderPriorityBy16Bits "the order has the low 16 bits of PRIORITY"
    OrderCookieBy32Bits "the order has the low 32 bits of a cookie"
    OrderByAddress "routes of one prefix length stand by address"

    // Request 2026-05: "after any calls from a fresh device": mods
    OrderModStays "a mod leaves a flow at its place in its table"
    Order0ModStays "a mod leaves a flow at its place in table 0"
    Order10ModStays "a mod leaves a flow at its place in table 10"
    Order30ModStays "a mod leaves a flow at its place in table 30"
    Order50ModStays "a mod leaves a flow at its place in table 50"
    OrderModPriorityStays "a mod that changes PRIORITY leaves a flow at its place"
    OrderModPrefixStays "a mod that changes the prefix length leaves a flow at its place"
    OrderModUpStays "a mod moves no flow up"
    OrderModDownStays "a mod moves no flow down"
    OrderModOneStep "a mod moves a flow by one place"
    OrderModBehindEquals "a flow that a mod moves stands behind those of its PRIORITY and prefix"
    OrderModBeforeEquals "a flow that a mod moves stands before those of its PRIORITY and prefix"
    OrderModSameLast "a mod that changes neither moves a flow behind those of its PRIORITY and prefix"
    OrderModTableStays "a mod to another table leaves a flow in the order of the old one"
    OrderModTableBoth "a mod to another table leaves the old flow in the order of the old one"
    OrderModTableLost "a mod to another table takes a flow out of the order"
    OrderModTableLast "a mod to another table puts a flow behind all that are there"
    OrderModTableFirst "a mod to another table puts a flow before all that are there"
    OrderEnoentAdds "a mod that is ENOENT puts a flow into the order"
    OrderModFull "a mod that moves a flow is ENOMEM when the table is full"

    // The same: dels and a device reset
    OrderDelStays "a flow that is deleted stays in the order"
    OrderDelLastFills "the last flow of a table takes the place of one that is deleted"
    OrderDelFirstEqual "a del takes the first flow of that PRIORITY and prefix out of the order"
    OrderDelHidesNext "the flow behind one that is deleted is not looked at"
    OrderDelHidesRest "the flows behind one that is deleted are not looked at"
    OrderAddOldPlace "a cookie that is deleted and added again stands where it stood"
    OrderAddFreedPlace "a flow that is added stands where one of its table was deleted"
    OrderResetKeeps "a device reset leaves the flows in the order"

    // Request 2026-05: "so that the first match ends the search"
    OrderLastMatch "the last match decides"
    OrderFirstAlone "only the first flow of a table is compared"
    OrderFirstPassedOver "the first flow of a table is not compared"
    OrderLastPassedOver "the last flow of a table is not compared"
    OrderHalfSearched "only the first 128 flows of a table are compared"
    OrderHighestAlone "only the flows of a table's highest PRIORITY are compared"
    OrderLongestAlone "only the routes of the longest prefix are compared"
    OrderEtherTypeEnds "a search of table 30 ends where the EtherType changes"
    OrderOfAllEnds "the flows of all tables stand in one order, and a search ends at one of another table"

    // Request 2026-05: "Freed places are used again"
    OrderPlacesOnce "a freed place is not used again"
    OrderPlacesByTable "each table has 256 places"
    OrderFreedByTable "a freed place is only used again by a flow of its table"
    OrderModTablePlaceLost "a mod to another table does not free the place of before"
    OrderResetPlacesLost "a device reset frees no places"
}

/// The forms of a command that differ in the fields they use.
#[derive(Clone, Copy, Debug, PartialEq, Eq)]
pub enum Form {
    Table0,
    Table10,
    Table20,
    Table30,
    Table30V6,
    Table50,
    FlowDel,
    Port,
    Route,
    List,
    GroupDel,
}

const FORMS: [(Form, &str); 11] = [
    (Form::Table0, "table 0"),
    (Form::Table10, "table 10"),
    (Form::Table20, "table 20"),
    (Form::Table30, "table 30 and IPv4"),
    (Form::Table30V6, "table 30 and IPv6"),
    (Form::Table50, "table 50"),
    (Form::FlowDel, "flow del"),
    (Form::Port, "a group of type 0"),
    (Form::Route, "a group of type 2"),
    (Form::List, "a group of type 3 or 4"),
    (Form::GroupDel, "group del"),
];

impl Form {
    /// By CMD_TYPE, TBL, ETHERTYPE and the type of the group.
    pub fn of(code: u16, table: u16, v6: bool, kind: u32) -> Form {
        match code {
            5 => Form::FlowDel,
            9 => Form::GroupDel,
            3 | 4 => match table {
                10 => Form::Table10,
                20 => Form::Table20,
                30 if v6 => Form::Table30V6,
                30 => Form::Table30,
                50 => Form::Table50,
                _ => Form::Table0,
            },
            _ if kind == 0 => Form::Port,
            _ if kind == 2 => Form::Route,
            _ => Form::List,
        }
    }

    /// The types that must not be there: those of the other EtherType.
    pub fn excludes(self) -> &'static [u32] {
        match self {
            Form::Table30 => &[DST_IPV6, DST_IPV6_MASK],
            Form::Table30V6 => &[DST_IP, DST_IP_MASK],
            _ => &[],
        }
    }

    /// The types that are listed for it.
    pub fn uses(self) -> &'static [u32] {
        match self {
            Form::Table0 => &[
                TBL,
                PRIORITY,
                HARDTIME,
                IDLETIME,
                COOKIE,
                IN_PPORT,
                IN_PPORT_MASK,
                GOTO_TBL,
            ],
            Form::Table10 => &[
                TBL,
                PRIORITY,
                HARDTIME,
                IDLETIME,
                COOKIE,
                IN_PPORT,
                VLAN_ID,
                GOTO_TBL,
                NEW_VLAN_ID,
            ],
            Form::Table20 => &[
                TBL, PRIORITY, HARDTIME, IDLETIME, COOKIE, IN_PPORT, ETHERTYPE, DST_MAC, VLAN_ID,
                GOTO_TBL,
            ],
            Form::Table30 => &[
                TBL,
                PRIORITY,
                HARDTIME,
                IDLETIME,
                COOKIE,
                ETHERTYPE,
                DST_IP,
                DST_IP_MASK,
                GOTO_TBL,
                GROUP_ID,
            ],
            Form::Table30V6 => &[
                TBL,
                PRIORITY,
                HARDTIME,
                IDLETIME,
                COOKIE,
                ETHERTYPE,
                DST_IPV6,
                DST_IPV6_MASK,
                GOTO_TBL,
                GROUP_ID,
            ],
            Form::Table50 => &[
                TBL, PRIORITY, HARDTIME, IDLETIME, COOKIE, VLAN_ID, DST_MAC, GOTO_TBL, GROUP_ID,
            ],
            Form::FlowDel => &[COOKIE],
            Form::Port => &[GROUP_ID, OUT_PPORT, POP_VLAN],
            Form::Route => &[GROUP_ID, GROUP_ID_LOWER, VLAN_ID, SRC_MAC, DST_MAC],
            Form::List => &[GROUP_ID, GROUP_COUNT, GROUP_IDS],
            Form::GroupDel => &[GROUP_ID],
        }
    }
}

/// The fields of CMD_INFO with their widths; a nest has none.
pub const FIELDS: [(u32, &str, Option<usize>); 23] = [
    (TBL, "TBL", Some(2)),
    (PRIORITY, "PRIORITY", Some(4)),
    (HARDTIME, "HARDTIME", Some(4)),
    (IDLETIME, "IDLETIME", Some(4)),
    (COOKIE, "COOKIE", Some(8)),
    (IN_PPORT, "IN_PPORT", Some(4)),
    (IN_PPORT_MASK, "IN_PPORT_MASK", Some(4)),
    (OUT_PPORT, "OUT_PPORT", Some(4)),
    (GOTO_TBL, "GOTO_TBL", Some(2)),
    (GROUP_ID, "GROUP_ID", Some(4)),
    (GROUP_ID_LOWER, "GROUP_ID_LOWER", Some(4)),
    (GROUP_COUNT, "GROUP_COUNT", Some(2)),
    (GROUP_IDS, "GROUP_IDS", None),
    (VLAN_ID, "VLAN_ID", Some(2)),
    (NEW_VLAN_ID, "NEW_VLAN_ID", Some(2)),
    (ETHERTYPE, "ETHERTYPE", Some(2)),
    (DST_MAC, "DST_MAC", Some(6)),
    (SRC_MAC, "SRC_MAC", Some(6)),
    (DST_IP, "DST_IP", Some(4)),
    (DST_IP_MASK, "DST_IP_MASK", Some(4)),
    (DST_IPV6, "DST_IPV6", Some(16)),
    (DST_IPV6_MASK, "DST_IPV6_MASK", Some(16)),
    (POP_VLAN, "POP_VLAN", Some(1)),
];

/// What is misread of a field in a form.
#[derive(Clone, Copy, Debug, PartialEq, Eq)]
pub enum How {
    // Of a field that the form does not use:
    OddRefused,
    TwiceRefused,
    // Of one that it uses:
    OddTaken,
    TwiceTaken,
    MissingTaken,
    // Of one that must not be there:
    OtherSkipped,
    OtherOddSkipped,
    OtherTwiceSkipped,
}

impl How {
    const ALL: [How; 8] = [
        How::OddRefused,
        How::TwiceRefused,
        How::OddTaken,
        How::TwiceTaken,
        How::MissingTaken,
        How::OtherSkipped,
        How::OtherOddSkipped,
        How::OtherTwiceSkipped,
    ];

    fn words(self) -> (&'static str, &'static str) {
        match self {
            How::OddRefused => ("OddRefused", "is not used, but refused with another width"),
            How::TwiceRefused => ("TwiceRefused", "is not used, but refused if it comes twice"),
            How::OddTaken => ("OddTaken", "is taken with another width"),
            How::TwiceTaken => ("TwiceTaken", "is taken if it comes twice"),
            How::MissingTaken => ("MissingTaken", "may be missing"),
            How::OtherSkipped => ("OtherSkipped", "may be there and is skipped"),
            How::OtherOddSkipped => ("OtherOddSkipped", "is skipped with another width"),
            How::OtherTwiceSkipped => ("OtherTwiceSkipped", "is skipped if it comes twice"),
        }
    }

    /// Whether it says something of a field in a form. Optional fields cannot be missing by mistake, nor have nests a width.
    fn concerns(self, form: Form, kind: u32) -> bool {
        let optional = [HARDTIME, IDLETIME, NEW_VLAN_ID].contains(&kind)
            || (form, kind) == (Form::Table50, DST_MAC)
            || kind == GROUP_ID && [Form::Table30, Form::Table30V6, Form::Table50].contains(&form);
        // Without these the form would be another one.
        let decides = kind == TBL && form != Form::Table0
            || kind == GROUP_ID && [Form::Route, Form::List].contains(&form)
            || (form, kind) == (Form::Table30V6, ETHERTYPE);
        let excluded = form.excludes().contains(&kind);
        match self {
            How::OddRefused | How::TwiceRefused => !form.uses().contains(&kind) && !excluded,
            How::OddTaken => form.uses().contains(&kind) && kind != GROUP_IDS,
            How::TwiceTaken => form.uses().contains(&kind),
            How::MissingTaken => form.uses().contains(&kind) && !optional && !decides,
            How::OtherSkipped | How::OtherOddSkipped | How::OtherTwiceSkipped => excluded,
        }
    }
}

/// Every label with its name and meaning.
pub fn all() -> Vec<(Label, String, String)> {
    let mut all: Vec<(Label, String, String)> = PLAIN
        .iter()
        .map(|(label, name, meaning)| (*label, name.to_string(), meaning.to_string()))
        .collect();
    for (kind, field, width) in FIELDS {
        let (name, meaning) = (
            format!("OtherType:{field}"),
            format!("{field} has type {}", kind + 1),
        );
        all.push((Label::OtherType(kind), name, meaning));
        // The times are only kept: nothing shows their order.
        if width.is_some_and(|width| width > 1) && ![HARDTIME, IDLETIME].contains(&kind) {
            let name = format!("OtherOrder:{field}");
            let meaning = format!("{field} has its bytes in the other order");
            all.push((Label::OtherOrder(kind), name, meaning));
        }
    }
    for (form, told) in FORMS {
        for (kind, field, _) in FIELDS {
            for how in How::ALL {
                if how.concerns(form, kind) {
                    let (short, long) = how.words();
                    let name = format!("{form:?}:{field}:{short}");
                    let meaning = format!("for {told} {field} {long}");
                    all.push((Label::InForm(form, kind, how), name, meaning));
                }
            }
        }
    }
    all
}

static CHOSEN: OnceLock<Label> = OnceLock::new();

/// Chooses the misreading of this run; `None` if no label has that name.
pub fn choose(name: &str) -> Option<()> {
    let (label, _, _) = all().into_iter().find(|(_, known, _)| known == name)?;
    CHOSEN.set(label).ok()
}

/// Whether this sentence is misread: never, unless the command line said so.
/// Without the feature the compiler leaves the question out.
pub fn misread(label: Label) -> bool {
    cfg!(feature = "misreadings") && CHOSEN.get() == Some(&label)
}

/// A number as it is; where the label is chosen, its low 32 bits.
pub fn cut_if(label: Label, number: u64) -> u64 {
    if misread(label) {
        return number & 0xffff_ffff;
    }
    number
}

#[cfg(test)]
mod tests {
    use super::*;
    use std::collections::BTreeSet;

    #[test]
    fn names_and_meanings_are_distinct() {
        let all = all();
        let names: BTreeSet<&str> = all.iter().map(|(_, name, _)| &name[..]).collect();
        let meanings: BTreeSet<&str> = all.iter().map(|(_, _, meaning)| &meaning[..]).collect();
        assert_eq!((names.len(), meanings.len()), (all.len(), all.len()));
    }

    #[test]
    fn fields_that_are_not_used_make_180_pairs() {
        let refused = |how| {
            all()
                .iter()
                .filter(|(label, _, _)| matches!(label, Label::InForm(_, _, h) if *h == how))
                .count()
        };
        assert_eq!(refused(How::OddRefused), 180);
        assert_eq!(refused(How::TwiceRefused), 180);
        // Two of the other EtherType for each of the two.
        assert_eq!(refused(How::OtherSkipped), 4);
    }

    #[test]
    fn nothing_is_misread_unless_it_is_chosen() {
        assert!(all().iter().all(|(label, _, _)| !misread(*label)));
    }
}
