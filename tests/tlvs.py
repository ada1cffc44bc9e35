"""TLVs as every maker of payloads here writes them: type (4 bytes), length (2), pad (2), the value, filled up to a multiple of 8. A length
counts the header's 8 bytes and the value (request 2026-02), so in journals of versions 2 and 3; in one of version 1 it counts the value alone
(document 01)."""
import struct

HEADER = 8  # what a length counts beside the value, as the device has it
HEADER_OF = {1: 0, 2: HEADER, 3: HEADER}  # the same by a journal's version
VERSION = 3  # what a device writes (request 2026-03)


def with_length(kind, length, value=b""):
    """A TLV whose length says anything."""
    return struct.pack("<IHH", kind, length, 0) + value + bytes(-len(value) % 8)


def tlv(kind, value, header=HEADER):
    """One TLV. The value is bytes, or a nest: its TLVs as (type, value)."""
    value = value if isinstance(value, bytes) else region(value, header)
    return with_length(kind, header + len(value), value)


def region(tlvs, header=HEADER):
    """TLVs, given as (type, value), one after the other."""
    return b"".join(tlv(kind, value, header) for kind, value in tlvs)


def of_version(payload, version):
    """The bytes of a payload in a journal of that version; what is bytes already is taken as it is."""
    return payload if isinstance(payload, bytes) else region(payload, HEADER_OF[version])


def in_two_meanings(old, new):
    """Bytes that are one payload by the lengths of version 1 and another by those of version 2. A first TLV of length 16 ends 8 bytes later in
    version 1, and from there the two walk apart: in version 2 all of the old payload is one value, in version 1 all of the new one."""
    old, new = of_version(old, 1), of_version(new, 2)
    old += with_length(99, len(new))
    return with_length(99, 16, bytes(8)) + with_length(99, HEADER + len(old), old) + new


def values(data, header=HEADER):
    """The values of a well-formed region by type, the first one where a type comes twice."""
    found, at = {}, 0
    while at < len(data):
        kind, length = struct.unpack_from("<IH", data, at)
        found.setdefault(kind, data[at + 8:at + 8 + length - header])
        at += 8 + (length - header + 7) // 8 * 8
    return found
