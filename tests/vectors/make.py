#!/usr/bin/env python3
"""Writes the vectors of the packet reader: crates/vectors/stdin and crates/vectors/stdout.

The reader below is written from document 01, from requests L4 and L6 of document 02 for the
checksum field and the positions, and from RFC 2334, appendix B, for the layouts. It shares no
code and no definition with the crates. Run it by hand after a change here, and commit both files.

    python3 tests/vectors/make.py           write both files
    python3 tests/vectors/make.py --list    print each vector's number, name and first line

stdin holds the entries one after another: kind (1 checksum, 2 packet, 3 checksum field), length
(2 octets, big-endian), the octets. stdout holds what is to be printed for each of them:

    checksum    sum XXXX checksum XXXX
    field       field XXXX good 1 or 0
    packet      CODE                    refused with 5 to 9
                10 POSITION             malformed
                0 TYPE PROTOCOL GROUP SENDER RECEIVER, and lines indented by two spaces:
                    CA              NUMBER M I O
                    Hello           INTERVAL FACTOR, then a line for each additional receiver
                    each record     HOPS N NUMBER KEY ORIGINATOR PAYLOAD
IDs, keys, payloads and CSA numbers are in hexadecimal, '-' for an empty one, all else decimal.
"""

import pathlib
import sys

CA, REQUEST, REPLY, SOLICIT, HELLO = 1, 2, 3, 4, 5


# The reader.

class Malformed(Exception):
    """Code 10, with the position of the first field that breaks a rule."""

    def __init__(self, position):
        super().__init__(position)
        self.position = position


def ones_sum(octets):
    """The 16-bit ones' complement sum, an odd last octet padded with zero."""
    if len(octets) % 2:
        octets = octets + b"\0"
    total = 0
    for i in range(0, len(octets), 2):
        total += octets[i] * 256 + octets[i + 1]
        if total > 0xFFFF:
            total -= 0xFFFF
    return total


def with_field(octets, field):
    """The octets with these in the checksum field, as far as they reach there."""
    return octets[:4] + two(field)[:len(octets[4:6])] + octets[6:]


def field_of(octets):
    """The checksum field; an octet beyond the end reads as 0."""
    return int.from_bytes(octets[4:6].ljust(2, b"\0"), "big")


def right_field(octets):
    """L4: 'the field holds the checksum computed with the field 0, or that is 0 and the field 0xFFFF'."""
    checksum = 0xFFFF - ones_sum(with_field(octets, 0))
    return field_of(octets) == checksum or checksum == 0 and field_of(octets) == 0xFFFF


class Fields:
    """The fields of a packet, read in packet order. A field that is not wholly inside the packet
    breaks where it begins, and at the packet's end where it begins beyond that."""

    def __init__(self, packet, at):
        self.packet = packet
        self.at = at

    def octets(self, size):
        start, end = self.at, self.at + size
        if end > len(self.packet):
            raise Malformed(min(start, len(self.packet)))
        self.at = end
        return self.packet[start:end]

    def number(self, size, good=lambda value: True):
        start = self.at
        value = int.from_bytes(self.octets(size), "big")
        if not good(value):
            raise Malformed(start)
        return value


def refusal(packet):
    """The first of codes 5 to 9 that applies, or 0."""
    if not 8 <= len(packet) <= 284:
        return 5
    if int.from_bytes(packet[2:4], "big") != len(packet):
        return 5
    if packet[0] != 1:
        return 6
    if packet[1] not in (CA, REQUEST, REPLY, SOLICIT, HELLO):
        return 7
    if ones_sum(packet) != 0xFFFF:
        return 8
    if packet[6:8] != b"\0\0":
        return 9
    return 0


def hexadecimal(octets):
    return octets.hex() or "-"


def nonzero(value):
    return value != 0


def read_record(fields, kind):
    """The line of a record: a CSA in a CSU Request, else a summary."""
    start, end = fields.at, len(fields.packet)
    hops = fields.number(2, nonzero)
    length = fields.number(2, lambda n: start + n <= end)

    def key_length_good(size):
        if not 1 <= size <= 16:
            return False
        summary = 16 + size
        return length >= summary if kind == REQUEST else length == summary

    key_length = fields.number(1, key_length_good)
    originator_length = fields.number(1, lambda n: n == 4)
    null = fields.number(2, lambda flags: flags < 0x8000 or kind == REQUEST) >> 15
    number = fields.number(4, lambda n: n != 0x80000000)
    key = fields.octets(key_length)
    originator = fields.octets(originator_length)
    size = start + length - fields.at
    if size > 32 or size > 0 and (null or number == 0x7FFFFFFF):
        raise Malformed(fields.at)
    payload = fields.octets(size)
    return "%d %d %08x %s %s %s" % (
        hops, null, number, hexadecimal(key), hexadecimal(originator), hexadecimal(payload))


def read_receiver(fields):
    """The line of an additional receiver of a Hello."""
    length = fields.number(1, lambda n: n == 4)
    return hexadecimal(fields.octets(length))


def read_mandatory(packet):
    """The lines of a packet that codes 5 to 9 leave."""
    kind = packet[1]
    fields = Fields(packet, 8)
    lines = []
    if kind == CA:
        ca_number = fields.number(4)
    if kind == HELLO:
        interval = fields.number(2, nonzero)
        factor = fields.number(2, nonzero)
        lines.append("%d %d" % (interval, factor))
        fields.number(2)
        fields.number(2)
    protocol = fields.number(2)
    group = fields.number(2)
    fields.number(2)
    flags = fields.number(2)
    if kind == CA:
        lines.append("%d %d %d %d" % (ca_number, flags >> 15 & 1, flags >> 14 & 1, flags >> 13 & 1))
    sender_length = fields.number(1, lambda n: n == 4)
    receiver_length = fields.number(1, lambda n: n == 4 or n == 0 and kind == HELLO)
    count = fields.number(2, lambda n: n <= (8 if kind == HELLO else 4))
    sender = fields.octets(sender_length)
    receiver = fields.octets(receiver_length)
    for _ in range(count):
        lines.append(read_receiver(fields) if kind == HELLO else read_record(fields, kind))
    if fields.at < len(packet):
        raise Malformed(fields.at)
    head = "0 %d %d %d %s %s" % (kind, protocol, group, hexadecimal(sender), hexadecimal(receiver))
    return [head] + ["  " + line for line in lines]


def read(packet):
    """The lines of a packet."""
    code = refusal(packet)
    if code:
        return [str(code)]
    try:
        return read_mandatory(packet)
    except Malformed as malformed:
        return ["10 %d" % malformed.position]


# The writer of packets, each field free to be wrong.

US = bytes([10, 0, 0, 2])
PEER = bytes([10, 0, 0, 1])
THIRD = bytes([10, 0, 0, 3])


def two(value):
    return value.to_bytes(2, "big")


def four(value):
    return (value % 2 ** 32).to_bytes(4, "big")


def fixed(kind, rest, version=1, size=None, checksum=None, extensions=0):
    """A packet with the given octets after the fixed part."""
    size = 8 + len(rest) if size is None else size
    before, after = bytes([version, kind]) + two(size), two(extensions) + rest
    if checksum is None:
        checksum = 0xFFFF - ones_sum(before + two(0) + after)
    return before + two(checksum) + after


def resealed(packet):
    """The octets with the packet size and the checksum set right."""
    octets = packet[:2] + two(len(packet)) + two(0) + packet[6:]
    return octets[:4] + two(0xFFFF - ones_sum(octets)) + octets[6:]


def common(records, count=None, sender=PEER, receiver=US, sender_length=None, receiver_length=None,
           protocol=2, group=7, unused=0, flags=0):
    count = len(records) if count is None else count
    sender_length = len(sender) if sender_length is None else sender_length
    receiver_length = len(receiver) if receiver_length is None else receiver_length
    return (two(protocol) + two(group) + two(unused) + two(flags)
            + bytes([sender_length, receiver_length]) + two(count) + sender + receiver + b"".join(records))


def record(key=b"A", payload=b"", number=-2147483647, hops=1, null=0, unused=0, originator=PEER,
           length=None, key_length=None, originator_length=None):
    key_length = len(key) if key_length is None else key_length
    originator_length = len(originator) if originator_length is None else originator_length
    rest = (bytes([key_length, originator_length]) + two(null << 15 | unused) + four(number)
            + key + originator + payload)
    length = 4 + len(rest) if length is None else length
    return two(hops) + two(length) + rest


def ca(records=(), number=1, after=b"", **fields):
    return fixed(CA, four(number) + common(list(records), **fields) + after)


def plain(kind, records=(), after=b"", **fields):
    return fixed(kind, common(list(records), **fields) + after)


def request(records=(), **fields):
    return plain(REQUEST, records, **fields)


def hello(receivers=(), interval=10, factor=3, unused_before=0, family=0, after=b"", **fields):
    before = two(interval) + two(factor) + two(unused_before) + two(family)
    return fixed(HELLO, before + common(list(receivers), **fields) + after)


def additional(receiver, length=None):
    return bytes([len(receiver) if length is None else length]) + receiver


# The vectors. Where a first line is given beside the octets, the reader must answer it ("0": taken).

vectors = []


def checksum(name, octets, expected_sum=None, expected_checksum=None):
    total = ones_sum(octets)
    assert expected_sum in (None, total), (name, "%04x" % total)
    assert expected_checksum in (None, 0xFFFF - total), (name, "%04x" % (0xFFFF - total))
    vectors.append((1, name, octets, ["sum %04x checksum %04x" % (total, 0xFFFF - total)]))


def field(name, octets, expected):
    assert right_field(octets) == expected, (name, octets.hex())
    assert (ones_sum(octets) == 0xFFFF) == expected, (name, octets.hex())
    vectors.append((3, name, octets, ["field %04x good %d" % (field_of(octets), expected)]))


def packet(name, octets, expected=None):
    lines = read(octets)
    if expected == "0":
        assert lines[0].startswith("0 "), (name, lines)
    elif expected is not None:
        assert lines[0] == expected, (name, lines)
    vectors.append((2, name, octets, lines))


def checksums():
    checksum("RFC 1071 section 3", bytes.fromhex("0001f203f4f5f6f7"), 0xDDF2, 0x220D)
    header = bytes.fromhex("45000073000040004011b861c0a80001c0a800c7")
    checksum("IPv4 header, field as sent", header, 0xFFFF, 0x0000)
    checksum("IPv4 header, field 0", header[:10] + b"\0\0" + header[12:], 0x479E, 0xB861)
    checksum("empty", b"", 0x0000, 0xFFFF)
    checksum("1 octet", b"\xab", 0xAB00, 0x54FF)
    checksum("3 octets", bytes.fromhex("0001f2"), 0xF201, 0x0DFE)
    checksum("7 octets", bytes.fromhex("0001f203f4f5f6"))
    checksum("7 octets that carry", b"\xff" * 6 + b"\x80", 0x8000, 0x7FFF)
    checksum("8 octets of zeros", bytes(8), 0x0000, 0xFFFF)
    checksum("284 octets of zeros", bytes(284), 0x0000, 0xFFFF)
    checksum("8 octets of ones", b"\xff" * 8, 0xFFFF, 0x0000)
    checksum("9 octets of ones", b"\xff" * 9, 0xFF00, 0x00FF)
    checksum("284 octets of ones", b"\xff" * 284, 0xFFFF, 0x0000)
    checksum("carry into a carry", bytes.fromhex("ffff0001ffff"), 0x0001, 0xFFFE)
    checksum("octets 0 to 255", bytes(range(256)))
    checksum("octets 0 to 254", bytes(range(255)))
    marked = hello(sender=US, receiver=b"")
    checksum("the Hello of document 01, field 0", marked[:4] + b"\0\0" + marked[6:], None, 0xF0C2)
    checksum("the Hello of document 01, as sent", marked, 0xFFFF, 0x0000)


def with_rest(octets, at):
    """The octets with the word at a position chosen so that all but the checksum field sum to 0xFFFF."""
    octets = with_field(octets[:at] + bytes(2) + octets[at + 2:], 0)
    return octets[:at] + two(0xFFFF - ones_sum(octets)) + octets[at + 2:]


def fields():
    """L4, of any octets, not of packets alone: right fields and wrong ones, odd and even lengths."""
    for length in (8, 9, 10, 11, 36, 37, 284):
        for value, right in ((0, False), (0xFFFF, True), (1, False), (0xFFFE, False)):
            if length < 40 or value in (0, 0xFFFF):
                field("%d zeros, field %04x" % (length, value), with_field(bytes(length), value), right)
    for length in (8, 9, 10, 11, 12, 13, 283):
        octets = with_rest(bytes((i * 37 + length) % 256 for i in range(length)), 6)
        for value, right in ((0, True), (0xFFFF, True), (1, False), (0xFFFE, False), (0xFF, False), (0xFF00, False)):
            if length < 40 or right:
                field("%d octets that sum to ffff, field %04x" % (length, value), with_field(octets, value), right)
    for length in range(8, 41):
        octets = bytes((i * 37 + length * 11) % 256 for i in range(length))
        right = 0xFFFF - ones_sum(with_field(octets, 0))
        field("%d octets" % length, with_field(octets, right), True)
        for wrong in (right - 1, right + 1):
            field("%d octets, field %04x for %04x" % (length, wrong, right), with_field(octets, wrong), False)
    octets = bytes((i * 91 + 5) % 256 for i in range(13))
    right = 0xFFFF - ones_sum(with_field(octets, 0))
    for bit in range(16):
        field("13 octets, bit %d of the field" % bit, with_field(octets, right ^ 1 << bit), False)
    low = 0xFFFF - ones_sum(with_field(octets[:-1] + b"\0" + octets[-1:], 0))
    field("13 octets, the last counted low", with_field(octets, low), False)
    counted = 0xFFFF - ones_sum(with_field(octets, 0x1234))
    field("13 octets, the field before counted too", with_field(octets, counted), False)
    for octets, right in ((b"", False), (b"\xff\xff", True), (b"\xff\xfe", False), (bytes(4), False),
                          (b"\0\0\0\xff\xff", True), (b"\0\0\0\0\xff", False), (b"\0\0\0\0\xff\xff", True)):
        field("%d octets, %s" % (len(octets), octets.hex()), octets, right)


KEY = bytes(range(0x61, 0x71))
LOAD = bytes(range(0x80, 0xA0))
FULL = [record(key=KEY[:15] + bytes([0x30 + i]), payload=LOAD, number=i - 2, hops=16, originator=THIRD) for i in range(4)]

SPECIMENS = {
    CA: ca([record(), record(key=b"key2", number=5)], number=4294967295, flags=0xA000),
    REQUEST: request([record(payload=b"xyz", hops=16), record(key=b"key2", number=-5, null=1)]),
    REPLY: plain(REPLY, [record(), record(key=b"key2", number=-1)]),
    SOLICIT: plain(SOLICIT, [record(), record(key=b"key2", number=2147483647)]),
    HELLO: hello([additional(THIRD), additional(PEER)]),
}
NAMES = {CA: "CA", REQUEST: "CSU Request", REPLY: "CSU Reply", SOLICIT: "CSUS", HELLO: "Hello"}
# Where the records of a packet with 4-octet IDs begin.
RECORDS = {CA: 32, REQUEST: 28, REPLY: 28, SOLICIT: 28, HELLO: 36}


def good_packets():
    for kind, octets in SPECIMENS.items():
        packet(NAMES[kind], octets, "0")
    packet("the Hello of document 01", hello(sender=US, receiver=b""), "0 5 2 7 0a000002 -")
    packet("CA without records", ca(flags=0xE000), "0")
    for flags in range(8):
        packet("CA, flags %d" % flags, ca([record()], number=2147483648 + flags, flags=flags << 13), "0")
    for kind in (REQUEST, REPLY, SOLICIT):
        packet("%s without records" % NAMES[kind], plain(kind), "0")
    packet("largest CSU Request", request(FULL), "0")
    assert len(request(FULL)) == 284
    for kind in (REPLY, SOLICIT):
        packet("largest %s" % NAMES[kind], plain(kind, [record(key=KEY) for _ in range(4)]), "0")
    packet("largest CA", ca([record(key=KEY) for _ in range(4)]), "0")
    packet("largest Hello", hello([additional(bytes([10, 0, 1, i])) for i in range(8)]), "0")
    packet("largest interval and factor", hello(interval=65535, factor=65535), "0")
    packet("least interval and factor", hello(interval=1, factor=1), "0")
    packet("interval and factor 256", hello(interval=256, factor=256), "0")
    packet("additional receivers without a receiver", hello([additional(THIRD), additional(PEER)], receiver=b""), "0")
    packet("group numbers 0", request([record()], protocol=0, group=0), "0 2 0 0 0a000001 0a000002")
    packet("group numbers 65535", request([record()], protocol=65535, group=65535), "0 2 65535 65535 0a000001 0a000002")
    packet("IDs of zeros and ones", request([record(originator=bytes(4))], sender=bytes(4), receiver=b"\xff" * 4), "0")
    packet("unused fields and flags not 0, CA", ca([record(unused=0x7FFF)], unused=65535, flags=0x1FFF), "0")
    for kind in (REQUEST, REPLY, SOLICIT):
        packet("unused fields and flags not 0, %s" % NAMES[kind],
               plain(kind, [record(unused=0x7FFF)], unused=65535, flags=65535), "0")
    packet("unused fields, Family ID and flags not 0, Hello",
           hello(unused_before=65535, family=65535, unused=65535, flags=65535), "0")
    for number in (-2147483647, -2147483646, -1, 0, 1, 2147483645, 2147483646):
        packet("number %d" % number, request([record(number=number, payload=b"p")]), "0")
    packet("number 2147483647 without payload", request([record(number=2147483647)]), "0")
    packet("number 2147483647 in a summary", plain(REPLY, [record(number=2147483647)]), "0")
    packet("N in a CSU Request without payload", request([record(null=1)]), "0")
    packet("N with number 2147483647 without payload", request([record(null=1, number=2147483647)]), "0")
    packet("hop count 65535", request([record(hops=65535, payload=b"p")]), "0")
    packet("hop count 65535 in a summary", plain(SOLICIT, [record(hops=65535)]), "0")
    packet("key of 16", request([record(key=KEY)]), "0")
    packet("payload of 1", request([record(payload=b"p")]), "0")
    packet("payload of 32", request([record(payload=LOAD)]), "0")
    packet("payload of 32 and key of 16, record length 64", request([record(key=KEY, payload=LOAD)]), "0")
    packet("record without payload between two with", request([record(payload=b"p"), record(), record(payload=b"q")]), "0")


def refused_packets():
    whole = SPECIMENS[REQUEST]
    for length in range(10):
        packet("first %d octets, packet size as before" % length, whole[:length], "5")
    for length in range(2, 8):
        packet("%d octets, packet size %d" % (length, length), whole[:2] + two(length) + bytes(4)[:length - 4], "5")
    over = request(FULL, after=b"\0")
    assert len(over) == 285
    packet("285 octets, packet size 285", over, "5")
    packet("285 octets, packet size 284", fixed(REQUEST, over[8:], size=284), "5")
    packet("1000 octets", fixed(REQUEST, bytes(992)), "5")
    for size in (0, 8, len(whole) - 1, len(whole) + 1, len(whole) + 256, 65535):
        packet("packet size %d" % size, fixed(REQUEST, whole[8:], size=size), "5")
    packet("packet size before version", fixed(REQUEST, whole[8:], size=8, version=2), "5")
    for version in (0, 2, 255):
        packet("version %d" % version, fixed(REQUEST, whole[8:], version=version), "6")
    packet("version before type", fixed(0, whole[8:], version=2), "6")
    for kind in (0, 6, 255):
        packet("type %d" % kind, fixed(kind, whole[8:]), "7")
    packet("type before checksum", fixed(6, whole[8:], checksum=0), "7")
    right = int.from_bytes(whole[4:6], "big")
    for wrong in (0, 0xFFFF, right - 1, right + 1, right ^ 0x8000, 0xFFFF - right):
        packet("checksum %04x for %04x" % (wrong, right), fixed(REQUEST, whole[8:], checksum=wrong), "8")
    packet("octets of the checksum exchanged", whole[:4] + whole[5:6] + whole[4:5] + whole[6:], "8")
    packet("checksum before extensions", fixed(REQUEST, whole[8:], checksum=0, extensions=8), "8")
    for extensions in (1, 8, len(whole), 0xFFFF):
        packet("start of extensions %d" % extensions, fixed(REQUEST, whole[8:], extensions=extensions), "9")
    packet("extensions before malformed", fixed(REQUEST, whole[8:-1], extensions=8), "9")
    # The group number that makes the sum of the rest 0xFFFF: both representations of zero are good.
    for kind, at in ((CA, 14), (REQUEST, 10), (REPLY, 10), (SOLICIT, 10), (HELLO, 18)):
        # The specimens of CA, CSU Reply and CSUS have an odd length, and so has the second CSU Request.
        for octets in [SPECIMENS[kind]] + [request([record(payload=b"pq")])] * (kind == REQUEST):
            octets = with_rest(octets, at)
            name = "%s of %d" % (NAMES[kind], len(octets))
            for zero in (0, 0xFFFF):
                packet("%s, checksum %04x for zero" % (name, zero), with_field(octets, zero), "0")
            for wrong in (1, 0xFFFE):
                packet("%s, checksum %04x for zero" % (name, wrong), with_field(octets, wrong), "8")
    for length in (8, 9, 36, 37):
        packet("%d zeros" % length, bytes(length), "5")
    # An odd last octet counts as the high octet of a pair.
    odd = request([record(payload=b"pq")])
    assert len(odd) % 2 == 1
    packet("odd length", odd, "0")
    low = 0xFFFF - ones_sum(odd[:4] + b"\0\0" + odd[6:-1] + b"\0" + odd[-1:])
    packet("odd length, last octet counted low", odd[:4] + two(low) + odd[6:], "8")


def malformed_heads():
    for kind, at in ((CA, 20), (REQUEST, 16), (REPLY, 16), (SOLICIT, 16), (HELLO, 24)):
        def build(records=(), **fields):
            if kind == CA:
                return ca(records, **fields)
            if kind == HELLO:
                return hello(records, **fields)
            return plain(kind, records, **fields)

        name = NAMES[kind]
        for length in (0, 3, 5, 255):
            packet("%s, sender length %d" % (name, length), build(sender_length=length), "10 %d" % at)
        packet("%s, sender of 3" % name, build(sender=PEER[:3]), "10 %d" % at)
        packet("%s, sender of 5" % name, build(sender=PEER + b"\0"), "10 %d" % at)
        for length in (3, 5, 255):
            packet("%s, receiver length %d" % (name, length), build(receiver_length=length), "10 %d" % (at + 1))
        packet("%s, receiver of 3" % name, build(receiver=US[:3]), "10 %d" % (at + 1))
        packet("%s, receiver of 5" % name, build(receiver=US + b"\0"), "10 %d" % (at + 1))
        packet("%s, receiver of 0" % name, build(receiver=b""), "0" if kind == HELLO else "10 %d" % (at + 1))
        # In a Hello the receiver's octets are then left over.
        packet("%s, receiver length 0" % name, build(receiver_length=0), "10 %d" % (at + 8 if kind == HELLO else at + 1))
        most = 8 if kind == HELLO else 4
        element = additional(THIRD) if kind == HELLO else record()
        for count in (most + 1, 256, 65535):
            packet("%s, count %d" % (name, count), build([element] * most, count=count), "10 %d" % (at + 2))
        packet("%s, %d elements" % (name, most + 1), build([element] * (most + 1)), "10 %d" % (at + 2))
        first = RECORDS[kind]
        packet("%s, count 1 and nothing" % name, build(count=1), "10 %d" % first)
        packet("%s, count 2 and one" % name, build([element], count=2), "10 %d" % (first + len(element)))
        packet("%s, count 1 and two" % name, build([element] * 2, count=1), "10 %d" % (first + len(element)))
        packet("%s, count 0 and one" % name, build([element], count=0), "10 %d" % first)
        packet("%s, one octet left over" % name, build([element], after=b"\0"), "10 %d" % (first + len(element)))
        packet("%s, no element and one octet left over" % name, build(after=b"\0"), "10 %d" % first)
        packet("%s, sender length before receiver length" % name, build(sender_length=0, receiver_length=9), "10 %d" % at)
        packet("%s, receiver length before count" % name, build(receiver_length=9, count=9), "10 %d" % (at + 1))
    packet("HelloInterval 0", hello(interval=0), "10 8")
    packet("DeadFactor 0", hello(factor=0), "10 10")
    packet("HelloInterval and DeadFactor 0", hello(interval=0, factor=0), "10 8")
    packet("HelloInterval 0, DeadFactor 65535", hello(interval=0, factor=65535), "10 8")
    packet("DeadFactor 0, unused field 65535", hello(interval=65535, factor=0, unused_before=65535), "10 10")
    packet("DeadFactor 0 before sender length", hello(factor=0, sender_length=9), "10 10")
    packet("HelloInterval 0 and nothing after", resealed(hello(interval=0)[:10]), "10 8")
    for length in (0, 3, 5, 255):
        packet("additional receiver, length %d" % length, hello([additional(THIRD, length=length)]), "10 36")
    packet("second additional receiver of 3", hello([additional(THIRD), additional(PEER[:3])]), "10 41")
    packet("additional receiver of 5", hello([additional(PEER + b"\0")]), "10 36")
    packet("additional receiver cut after its length", hello([additional(b"", length=4)]), "10 37")
    packet("additional receiver cut in its ID", hello([additional(PEER[:3], length=4)]), "10 37")
    packet("additional receivers without a receiver, the second of length 3",
           hello([additional(THIRD), additional(PEER[:3])], receiver=b""), "10 37")


def malformed_records():
    for kind in (CA, REQUEST, REPLY, SOLICIT):
        def build(*records, **fields):
            return ca(records, **fields) if kind == CA else plain(kind, records, **fields)

        name, at = NAMES[kind], RECORDS[kind]
        second = at + 17
        packet("%s, hop count 0" % name, build(record(hops=0)), "10 %d" % at)
        packet("%s, hop count 0 in the second" % name, build(record(), record(hops=0)), "10 %d" % second)
        packet("%s, record length beyond the end by 1" % name, build(record(length=18)), "10 %d" % (at + 2))
        packet("%s, record length 65535" % name, build(record(length=65535)), "10 %d" % (at + 2))
        packet("%s, second record beyond the end" % name, build(record(), record(length=18)), "10 %d" % (second + 2))
        packet("%s, record beyond the end before key length" % name,
               build(record(length=99, key_length=0)), "10 %d" % (at + 2))
        for length in (0, 1, 4, 5, 12, 16):
            packet("%s, record length %d" % (name, length), build(record(length=length)), "10 %d" % (at + 4))
        packet("%s, record length 1 too long, in the next" % name,
               build(record(length=18, number=7), record()),
               "10 %d" % (at + 18 + 2 if kind == REQUEST else at + 4))
        packet("%s, record length 4 at the end" % name, build(record(length=4)[:4]), "10 %d" % (at + 4))
        packet("%s, record length 5 at the end" % name, build(record(length=5)[:5]), "10 %d" % (at + 4))
        packet("%s, record of 16 octets at the end" % name, build(record(length=16)[:16]), "10 %d" % (at + 4))
        for key_length in (0, 17, 255):
            packet("%s, key length %d" % (name, key_length), build(record(key_length=key_length)), "10 %d" % (at + 4))
        packet("%s, key of 0" % name, build(record(key=b"")), "10 %d" % (at + 4))
        packet("%s, key of 17" % name, build(record(key=KEY + b"q")), "10 %d" % (at + 4))
        packet("%s, key length 2 for 1" % name, build(record(key_length=2)), "10 %d" % (at + 4))
        if kind != REQUEST:
            packet("%s, key length 1 for 2" % name, build(record(key=b"AB", key_length=1)), "10 %d" % (at + 4))
            packet("%s, payload in a summary" % name, build(record(payload=b"p")), "10 %d" % (at + 4))
            packet("%s, N" % name, build(record(null=1)), "10 %d" % (at + 6))
            packet("%s, N with unused bits" % name, build(record(null=1, unused=0x7FFF)), "10 %d" % (at + 6))
            packet("%s, N before the reserved number" % name,
                   build(record(null=1, number=-2147483648)), "10 %d" % (at + 6))
            packet("%s, N in the second" % name, build(record(), record(null=1)), "10 %d" % (second + 6))
        for length in (0, 3, 5, 255):
            packet("%s, originator length %d" % (name, length),
                   build(record(originator_length=length)), "10 %d" % (at + 5))
        packet("%s, originator of 3" % name, build(record(originator=PEER[:3])), "10 %d" % (at + 4))
        packet("%s, originator of 5" % name, build(record(originator=PEER + b"\0")),
               "10 %d" % (at + 5 if kind == REQUEST else at + 4))
        packet("%s, originator length before the reserved number" % name,
               build(record(originator_length=3, number=-2147483648)), "10 %d" % (at + 5))
        packet("%s, reserved number" % name, build(record(number=-2147483648)), "10 %d" % (at + 8))
        packet("%s, reserved number in the second" % name,
               build(record(), record(number=-2147483648)), "10 %d" % (second + 8))
        packet("%s, second record broken before octets left over" % name,
               build(record(), record(hops=0), after=b"\0"), "10 %d" % second)
    at = RECORDS[REQUEST]
    packet("payload of 33", request([record(payload=LOAD + b"p")]), "10 %d" % (at + 17))
    packet("payload of 33 and key of 16", request([record(key=KEY, payload=LOAD + b"p")]), "10 %d" % (at + 32))
    packet("payload of 33 in the fourth", request(FULL[:3] + [record(payload=LOAD + b"p")]), "10 %d" % (at + 209))
    packet("payload of 200", request([record(payload=bytes(200))]), "10 %d" % (at + 17))
    packet("N with payload", request([record(null=1, payload=b"p")]), "10 %d" % (at + 17))
    packet("N with payload in the second", request([record(), record(null=1, payload=b"p")]), "10 %d" % (at + 34))
    packet("number 2147483647 with payload", request([record(number=2147483647, payload=b"p")]), "10 %d" % (at + 17))
    packet("N with payload of 33", request([record(null=1, payload=LOAD + b"p")]), "10 %d" % (at + 17))
    packet("reserved number before payload of 33",
           request([record(number=-2147483648, payload=LOAD + b"p")]), "10 %d" % (at + 8))
    packet("reserved number with N", request([record(number=-2147483648, null=1)]), "10 %d" % (at + 8))


def cut_packets():
    """Each packet cut at each octet, its packet size and checksum set right."""
    for kind, octets in SPECIMENS.items():
        for length in range(8, len(octets)):
            packet("%s cut to %d" % (NAMES[kind], length), resealed(octets[:length]))


def changed_packets():
    """A packet of each type with one octet changed, its checksum set right."""
    short = (ca([record()], flags=0xA000), request([record(payload=b"xyz", hops=16)]), plain(REPLY, [record()]),
             plain(SOLICIT, [record()]), hello([additional(THIRD)]))
    for octets in short:
        kind = octets[1]
        for at in range(8, len(octets)):
            for value in sorted({0, 255, (octets[at] + 1) % 256} - {octets[at]}):
                changed = octets[:at] + bytes([value]) + octets[at + 1:]
                packet("%s, octet %d changed to %d" % (NAMES[kind], at, value), resealed(changed))


def main():
    checksums()
    fields()
    good_packets()
    refused_packets()
    malformed_heads()
    malformed_records()
    cut_packets()
    changed_packets()
    if sys.argv[1:] == ["--list"]:
        for n, (_, name, _, lines) in enumerate(vectors):
            print("%4d  %-60s %s" % (n, name, lines[0]))
        return
    folder = pathlib.Path(__file__).resolve().parents[2] / "crates" / "vectors"
    stdin = b"".join(bytes([kind]) + two(len(octets)) + octets for kind, _, octets, _ in vectors)
    stdout = "".join(line + "\n" for _, _, _, lines in vectors for line in lines)
    assert len(stdin) <= 65536, "the program reads no more"
    if sys.argv[1:] == ["--check"]:
        if (folder / "stdin").read_bytes() != stdin or (folder / "stdout").read_text() != stdout:
            sys.exit("crates/vectors is not what tests/vectors/make.py says")
        return
    (folder / "stdin").write_bytes(stdin)
    (folder / "stdout").write_text(stdout)
    print("%d vectors, %d octets of input, %d lines" % (len(vectors), len(stdin), stdout.count("\n")))


main()
