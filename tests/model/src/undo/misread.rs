//! Misreadings of request 2026-06, apart from those of the build description: these are asked for and listed by themselves.

use crate::misread::FIELDS;
use crate::tables::field::*;
use std::sync::OnceLock;

macro_rules! labels {
    ($($label:ident $meaning:literal)*) => {
        #[derive(Clone, Copy, Debug, PartialEq, Eq)]
        pub enum Label {
            $($label,)*
            /// Entries that differ in this field alone are not seen to differ.
            Ignored(u32),
            /// The field is left out.
            LeftOut(u32),
            /// The field is left out where it is 0.
            ZeroLeftOut(u32),
            /// The field has its bytes in the other order.
            Reversed(u32),
        }

        const PLAIN: &[(Label, &str, &str)] = &[$((Label::$label, stringify!($label), $meaning)),*];
    };
}

labels! {
    // "the tables that stood after its first n lines"
    UndoNBy16Bits "n is taken by its low 16 bits"
    UndoNBy32Bits "n is taken by its low 32 bits"
    UndoNSigned "n from 2^63 on is below 0 and taken as 0"
    UndoNBeforeLine "n counts from 1: the tables before line n"
    UndoNFrom0 "n counts from 0: the tables after line n + 1"
    UndoNFromEnd "n counts lines from the end"
    UndoNCountsOk "n counts the OK lines"
    UndoNCountsPayloads "n counts the lines that have a payload"
    UndoNoLinesIsNow "n = 0 asks for the tables as they are"
    UndoForward "the list leads from the first n lines to the end"
    UndoFromEmpty "the list is carried out on empty tables"

    // "n above the line count is refused with 15"
    UndoLastRefused "n = the line count is refused with 15"
    UndoNoLinesRefused "n = 0 is refused with 15"
    UndoAboveTaken "n above the line count is taken as the line count"
    UndoOneAboveTaken "n = the line count and 1 is taken as the line count"
    UndoCountIs14 "n above the line count is refused with 14"
    UndoCountHasLine0 "15 tells line 0"

    // "too little room for the list with 16"
    UndoRoomLonger "the room has to be longer than the list"
    UndoRoomWithoutLengths "the room has to hold the payloads without their lengths"
    UndoRoomEmptyRefused "an empty room is too little for an empty list"
    UndoRoomOneShortTaken "a room that is one byte too short is taken"
    UndoRoomIs6 "too little room is refused with 6"
    UndoRoomHasLine0 "16 tells line 0"

    // "after 10 to 14; none writes anything"
    UndoCountBeforeTrail "15 comes before 10 to 14"
    UndoRoomBeforeTrail "16 comes before 10 to 14"
    UndoRoomBeforeCount "16 comes before 15"
    UndoFaultsAfterN "a fault after line n is not looked at"
    UndoFaultsAreLine0 "10 to 14 tell line 0"
    UndoRoomPartWritten "a list that does not fit is written as far as it goes"
    UndoRoomWholePayloads "of a list that does not fit the payloads that do are written"
    UndoRefusedZeroes "a refusal zeroes the room"

    // Request 2026-02: "version 1 trails are still read with the old meaning"
    UndoVersion1New "a trail of version 1 is read with lengths that count the header"
    UndoVersion1Refused "a trail of version 1 is refused with 12"
    UndoVersion1Is15 "a good trail of version 1 is refused with 15"
    UndoVersion2Old "a trail of version 2 is read with lengths that count the value alone"
    UndoVersion2Refused "a trail of version 2 is refused with 12"
    UndoVersionLow "the low byte of the version is compared"

    // Request 2026-03: "New trails carry version 3; older ones have neither these tables nor type 2"
    UndoVersion3Refused "a trail of version 3 is refused with 12"
    UndoVersion3As2 "a trail of version 3 is read as one of version 2"
    UndoVersion2As3 "a trail of version 2 is read as one of version 3"
    UndoVersion4 "a trail of version 4 is read as one of version 3"
    UndoVersion2Is15 "a good trail of version 2 is refused with 15"

    // "The list goes to the start of the room, the rest is kept, and the result gives its length"
    UndoRestZeroed "the rest of the room is zeroed"
    UndoAtRoomEnd "the list goes to the end of the room"
    UndoResultPayloads "the result gives the number of payloads"
    UndoResultWithoutLengths "the result gives the payloads' bytes without their lengths"

    // "del of each flow or group only now there, mod of each that differs, add of each only then there"
    UndoDelsLeftOut "there are no dels"
    UndoModsLeftOut "there are no mods"
    UndoAddsLeftOut "there are no adds"
    UndoFlowsLeftOut "flows are left as they are"
    UndoGroupsLeftOut "groups are left as they are"
    UndoEverything "all that is there is deleted, and all that was there is added"
    UndoModIsDelAdd "an entry that differs gets a del and an add"
    UndoTableIsDelAdd "a flow whose table changed gets a del and an add"
    UndoModIsAdd "an entry that differs gets an add"
    UndoModOfNow "a mod has the fields as they are now"
    UndoModUnchanged "an entry that does not differ gets a mod too"
    UndoWayBackMod "a change and its way back give a mod"
    UndoComeAndGone "an entry that came and went after line n gets a del"
    UndoMembersAsSet "a list whose members have only another order does not differ"
    UndoPresenceIgnored "a field that only one side has is no difference"
    UndoTimesIgnored "flows that differ in their times alone get no mod"
    UndoRoutesLeftOut "flows of tables 20 and 30 are left as they are"
    UndoType2LeftOut "groups of type 2 are left as they are"
    UndoBitsOutsideIgnored "routes whose addresses differ outside their mask alone get no mod"

    // "The list is fixed: del .., mod .., add ..; in each, flows by cookie, then groups by ID, rising"
    UndoAddsFirst "adds come before dels"
    UndoModsFirst "mods come before dels"
    UndoAddsBeforeMods "adds come before mods"
    UndoGroupsFirst "in each run groups come before flows"
    UndoGroupsAddedFirst "among the adds groups come before flows"
    UndoAllFlowsFirst "all that is done to flows comes before all that is done to groups"
    UndoOneRun "keys rise through dels, mods and adds together"
    UndoKeysFall "keys fall"
    UndoCookiesFall "cookies fall"
    UndoIdsFall "group IDs fall"
    UndoDelsFall "the keys of the dels fall"
    UndoCookiesSigned "cookies are signed numbers"
    UndoCookiesBy32Bits "cookies rise by their low 32 bits"
    UndoCookiesByBytes "cookies rise by their bytes as they stand"
    UndoCookiesByTable "flows come by their table, then by cookie"
    UndoCookiesByPriority "flows come by their priority, then by cookie"
    UndoCookiesAsAdded "flows come in the order in which they were added"
    UndoIdsByVlan "groups come by VLAN, then by type"
    UndoIdsByBytes "group IDs rise by their bytes as they stand"
    UndoType2Last "groups of type 2 come after those of other types"
    UndoType2First "groups of type 2 come before those of other types"
    UndoCookiesByPrefix "routes come by their prefix, then by cookie"

    // "all its fields and both times (a del only its key), in rising type"
    UndoTimesLeftOut "the times are left out"
    UndoDelAllFields "a del has all fields"
    UndoDelHasTable "a flow's del has its TBL"
    UndoModDiffering "a mod has only the fields that differ, beside TBL, PRIORITY and its key"
    UndoModWithoutTimes "a mod leaves out times that do not differ"
    UndoNewVlanAlways "NEW_VLAN_ID stands as 0 where VLAN_ID is not 0"
    UndoMaskForTable10 "IN_PPORT_MASK stands for table 10 too"
    UndoMacAlways "a missing DST_MAC stands as zeros"
    UndoGroupAlways "a missing GROUP_ID stands as 0"
    UndoOutPportForLists "OUT_PPORT stands for types 3 and 4 too"
    UndoOutPport2Bytes "OUT_PPORT has 2 bytes"
    UndoPopForLists "POP_VLAN stands for types 3 and 4 too"
    UndoCountForType0 "GROUP_COUNT stands as 0 for type 0"
    UndoMaskForTable20 "IN_PPORT_MASK stands for table 20 too"
    UndoEtherTypeForTable50 "ETHERTYPE stands as 0 for table 50"
    UndoBothPairs "of a route the other address and mask stand as zeros"
    UndoRouteGroupAlways "a GROUP_ID that a route does not have stands as 0"
    UndoAddressMasked "an address stands under its mask"
    UndoMaskAsLength "a mask stands as the number of its ones"
    UndoOutPportForType2 "OUT_PPORT stands for type 2"
    UndoPopForType2 "POP_VLAN stands for type 2"
    UndoMacsSwapped "of type 2 SRC_MAC has the destination and DST_MAC the source"
    UndoMembersRising "members stand in rising order"
    UndoMembersFrom0 "the k-th member has type k - 1"
    UndoMembersBigEndian "members are big-endian"
    UndoTypesFall "types fall"
    UndoKeyFirst "the key stands before the other fields"
    UndoAsListed "fields stand in the order of the build description's sentences"
    UndoInfoFirst "CMD_INFO stands before CMD_TYPE"
    UndoCmdTypeBigEndian "CMD_TYPE is big-endian"

    // "A payload stands after its length (2 bytes), in the device's own length meaning, with zero pads and fill"
    UndoLengthWithItself "the length of a payload counts its own 2 bytes"
    UndoLengthBigEndian "the length of a payload is big-endian"
    UndoLength4Bytes "the length of a payload has 4 bytes"
    UndoLengthMissing "payloads stand without their lengths"
    UndoLengthBehind "the length of a payload stands behind it"
    UndoLengthsFirst "all lengths stand before all payloads"
    UndoLengthIn8s "the length of a payload counts 8 bytes as 1"
    UndoAligned "each payload's length begins at a multiple of 8"
    UndoEndsWith0 "the list ends with a length of 0"
    UndoBeginsWithCount "the list begins with the number of its payloads"
    UndoAsLines "payloads stand as lines of a trail"
    UndoLengthTakesHead "the length of a payload counts 8 bytes more than it has"
    UndoTlvLengthOfValue "a TLV's length counts its value alone"
    UndoTlvLengthOfTrail "a TLV's length counts as in the trail"
    UndoTopOld "at the top a TLV's length counts its value alone"
    UndoInfoOld "in CMD_INFO a TLV's length counts its value alone"
    UndoMembersOld "in GROUP_IDS a TLV's length counts its value alone"
    UndoNestOld "the length of CMD_INFO or GROUP_IDS counts its value alone"
    UndoTlvLengthFilled "a TLV's length counts the fill"
    UndoFillMissing "values are not filled up"
    UndoInfoUnfilled "CMD_INFO's length leaves its last fill out"
    UndoFillTo4 "values are filled up to multiples of 4"
    UndoFillOnes "the fill is ff"
    UndoPadOnes "pads are ff"
    UndoPadIsFill "pads tell the number of fill bytes"

    // The program
    UndoFileMade "a refused run makes an empty file"
    UndoFileEmptied "a refused run empties the file that is there"
    UndoFileRemoved "a refused run removes the file that is there"
    UndoFileAppended "the list goes behind what the file has"
    UndoFileRestKept "what a longer file has behind the list stays"
    UndoEmptyNotWritten "an empty list makes no file"
    UndoPrintsWithoutLengths "bytes are those of the payloads without their lengths"
    UndoPrintsBytesFirst "bytes are printed before payloads"
    UndoPrintsDone "answer 0 is printed too"
    UndoRefusedEnds1 "a refused run ends with 1"
}

/// Every label with its name and meaning.
pub fn all() -> Vec<(Label, String, String)> {
    let plain = PLAIN
        .iter()
        .map(|(label, name, meaning)| (*label, name.to_string(), meaning.to_string()));
    plain.chain(families()).collect()
}

type Family = (fn(u32) -> Label, &'static str, &'static [u32], &'static str);

/// Fields whose change alone makes an entry differ, fields of a put, those that may be 0, and those of several bytes.
const FAMILIES: [Family; 4] = [
    (
        Label::Ignored,
        "Ignored",
        &[
            PRIORITY,
            HARDTIME,
            IDLETIME,
            IN_PPORT,
            IN_PPORT_MASK,
            GOTO_TBL,
            GROUP_ID,
            GROUP_IDS,
            VLAN_ID,
            NEW_VLAN_ID,
            DST_MAC,
            POP_VLAN,
            GROUP_ID_LOWER,
            ETHERTYPE,
            SRC_MAC,
            DST_IP,
            DST_IP_MASK,
            DST_IPV6,
            DST_IPV6_MASK,
        ],
        "entries that differ in FIELD alone get no mod",
    ),
    (
        Label::LeftOut,
        "LeftOut",
        &[
            TBL,
            PRIORITY,
            HARDTIME,
            IDLETIME,
            COOKIE,
            IN_PPORT,
            IN_PPORT_MASK,
            OUT_PPORT,
            GOTO_TBL,
            GROUP_ID,
            GROUP_COUNT,
            GROUP_IDS,
            VLAN_ID,
            NEW_VLAN_ID,
            DST_MAC,
            POP_VLAN,
            GROUP_ID_LOWER,
            ETHERTYPE,
            SRC_MAC,
            DST_IP,
            DST_IP_MASK,
            DST_IPV6,
            DST_IPV6_MASK,
        ],
        "FIELD is left out",
    ),
    (
        Label::ZeroLeftOut,
        "ZeroLeftOut",
        &[
            TBL,
            PRIORITY,
            HARDTIME,
            IDLETIME,
            COOKIE,
            IN_PPORT,
            IN_PPORT_MASK,
            OUT_PPORT,
            GOTO_TBL,
            VLAN_ID,
            DST_MAC,
            POP_VLAN,
            SRC_MAC,
            DST_IP,
            DST_IP_MASK,
            DST_IPV6,
            DST_IPV6_MASK,
        ],
        "FIELD is left out where it is 0",
    ),
    (
        Label::Reversed,
        "Reversed",
        &[
            TBL,
            PRIORITY,
            HARDTIME,
            IDLETIME,
            COOKIE,
            IN_PPORT,
            IN_PPORT_MASK,
            OUT_PPORT,
            GOTO_TBL,
            GROUP_ID,
            GROUP_COUNT,
            VLAN_ID,
            NEW_VLAN_ID,
            DST_MAC,
            GROUP_ID_LOWER,
            ETHERTYPE,
            SRC_MAC,
            DST_IP,
            DST_IP_MASK,
            DST_IPV6,
            DST_IPV6_MASK,
        ],
        "FIELD has its bytes in the other order",
    ),
];

fn families() -> impl Iterator<Item = (Label, String, String)> {
    FAMILIES.iter().flat_map(|(label, family, kinds, meaning)| {
        kinds.iter().map(move |kind| {
            let name = FIELDS.iter().find(|(known, _, _)| known == kind);
            let field = name.map_or("", |(_, name, _)| name);
            (
                label(*kind),
                format!("Undo:{family}:{field}"),
                meaning.replace("FIELD", field),
            )
        })
    })
}

static CHOSEN: OnceLock<Label> = OnceLock::new();

/// Chooses the misreading of this run; `None` if no label has that name.
pub fn choose(name: &str) -> Option<()> {
    let (label, _, _) = all().into_iter().find(|(_, known, _)| known == name)?;
    CHOSEN.set(label).ok()
}

/// Whether this sentence is misread: never, unless the command line said so.
pub fn misread(label: Label) -> bool {
    cfg!(feature = "misreadings") && CHOSEN.get() == Some(&label)
}

/// The misreading of this run, for those that are told apart by a field.
pub fn chosen() -> Option<Label> {
    CHOSEN
        .get()
        .copied()
        .filter(|_| cfg!(feature = "misreadings"))
}

#[cfg(test)]
mod tests {
    use super::*;
    use std::collections::BTreeSet;

    #[test]
    fn names_and_meanings_are_distinct() {
        let all = all();
        let names: BTreeSet<&str> = all.iter().map(|(_, name, _)| &name[..]).collect();
        let meanings: BTreeSet<&str> = all.iter().map(|(_, _, meaning)| &meaning[..]).collect();
        assert_eq!((names.len(), meanings.len()), (all.len(), all.len()));
        let others = crate::misread::all();
        assert!(others.iter().all(|(_, name, _)| !names.contains(&name[..])));
    }

    #[test]
    fn nothing_is_misread_unless_it_is_chosen() {
        assert!(all().iter().all(|(label, _, _)| !misread(*label)));
    }
}
