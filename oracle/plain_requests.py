"""Reading Diameter requests by their tables of rows: a plain model, apart from the product.

docs/MESSAGES.md has the tables. A request is read, or refused by the first cause (RFC 6733, 7.1; TS 29.212, 5.5;
TS 29.214, 5.5).
"""
from typing import Callable, NamedTuple

BASE, GX, RX, RELAY = 0, 16777238, 16777236, 0xFFFFFFFF
TGPP = 10415
CER, AAR, CCR, STR, DWR, DPR = 257, 265, 272, 275, 280, 282
SERVED = {BASE: (CER, DWR, DPR), GX: (CCR,), RX: (AAR, STR)}
MOST_BYTES = 65532


class Refused(Exception):
    """A request is refused with a code."""

    def __init__(self, code):
        super().__init__(code)
        self.code = code


class Header(NamedTuple):
    """The header of a message (RFC 6733, 3)."""
    version: int
    is_request: bool
    is_proxiable: bool
    is_error: bool
    command: int
    application: int
    hop_by_hop: int
    end_to_end: int


class Avp(NamedTuple):
    """An AVP (RFC 6733, 4.1). Vendor 0 is no vendor, which is 0 here."""
    code: int
    vendor: int
    value: bytes


class Request(NamedTuple):
    """A request as read: its values by the names of the rows."""
    command: int
    values: dict


def number(octets):
    """A number in network order."""
    return int.from_bytes(octets, "big")


# ---- frames and AVPs

def cut_stream(stream):
    """The frames of a stream, and what is left: None, `Cut`, or the fault of a length that no message has."""
    frames = []
    while stream:
        length = number(stream[1:4])
        if len(stream) < 4:
            return frames, "Cut"
        if length < 20:
            return frames, "ShortLength"
        if length % 4 != 0:
            return frames, "OddLength"
        if length > MOST_BYTES:
            return frames, "TooLong"
        if len(stream) < length:
            return frames, "Cut"
        frames.append(stream[:length])
        stream = stream[length:]
    return frames, None


def read_header(frame):
    """The header of a frame."""
    flags = frame[4]
    return Header(frame[0], flags & 0x80 != 0, flags & 0x40 != 0, flags & 0x20 != 0, number(frame[5:8]),
                  number(frame[8:12]), number(frame[12:16]), number(frame[16:20]))


def cut_avps(octets):
    """The AVPs of a message or a group; behind the last AVP of a group the padding may be missing."""
    avps = []
    while octets:
        has_vendor = len(octets) >= 5 and octets[4] & 0x80 != 0
        head, length = 12 if has_vendor else 8, number(octets[5:8])
        if len(octets) < head or length < head or length > len(octets):
            raise Refused(5014)
        vendor = number(octets[8:12]) if has_vendor else 0
        avps.append(Avp(number(octets[0:4]), vendor, octets[head:length]))
        octets = octets[length + -length % 4:]
    return avps


# ---- rows

class Row(NamedTuple):
    """An AVP of a table: how often it stands at least and at most (None: any number), and how its value is read."""
    name: str
    code: int
    vendor: int
    least: int
    most: int | None
    read: Callable


def read_rows(rows, avps):
    """The values of each row, in the order of the rows."""
    values = {}
    for row in rows:
        there = [avp.value for avp in avps if (avp.code, avp.vendor) == (row.code, row.vendor)]
        if row.most is not None and len(there) > row.most:
            raise Refused(5009)
        if len(there) < row.least:
            raise Refused(5005)
        values[row.name] = [row.read(value) for value in there]
    return values


def unsigned(octets):
    """A number has four bytes."""
    if len(octets) != 4:
        raise Refused(5014)
    return number(octets)


def one_of(*numbers):
    """A number that is one of these."""
    def read(octets):
        if unsigned(octets) not in numbers:
            raise Refused(5004)
        return number(octets)
    return read


def text(most):
    """A text of 1 to so many bytes."""
    def read(octets):
        if not 1 <= len(octets) <= most:
            raise Refused(5004)
        return octets
    return read


def utf8(most):
    """A text of 1 to so many bytes, which are UTF-8 (RFC 6733, 4.3.1)."""
    def read(octets):
        try:
            return text(most)(octets).decode("utf-8").encode("utf-8")
        except UnicodeDecodeError:
            raise Refused(5004) from None
    return read


def address(octets):
    """An IPv4 address."""
    if len(octets) != 4:
        raise Refused(5004)
    return octets


def prefix(octets):
    """An IPv6 prefix (RFC 3162, 2.3): a byte that doesn't count, the length in bits, and bytes, of which the bits past the length
    don't count. It is the length and 16 bytes."""
    if not 2 <= len(octets) <= 18 or octets[1] > 128 or 8 * (len(octets) - 2) < octets[1]:
        raise Refused(5004)
    length = octets[1]
    mask = (1 << 128) - (1 << 128 - length)
    return length, (number(octets[2:].ljust(16, b"\0")) & mask).to_bytes(16, "big")


def access_point(octets):
    """The name of an access point, with capitals as small letters."""
    return text(255)(octets).lower()


def group(rows):
    """A group of AVPs with a table of its own."""
    return lambda octets: read_rows(rows, cut_avps(octets))


SESSION_ID = Row("session", 263, 0, 1, 1, text(512))
HOST = Row("host", 264, 0, 1, 1, text(255))
REALM = Row("realm", 296, 0, 1, 1, text(255))
AUTH_APPLICATION = Row("application", 258, 0, 0, None, unsigned)
VENDOR_APPLICATION = Row("vendor", 260, 0, 0, None, group([AUTH_APPLICATION]))
KIND = Row("kind", 416, 0, 1, 1, one_of(1, 2, 3))
NUMBER = Row("number", 415, 0, 1, 1, unsigned)
SUBSCRIBER_TYPE = Row("type", 450, 0, 1, 1, one_of(0, 1, 2, 3, 4))
SUBSCRIBER_DATA = Row("data", 444, 0, 1, 1, text(255))
SUBSCRIBERS = Row("subscribers", 443, 0, 0, 16, group([SUBSCRIBER_TYPE, SUBSCRIBER_DATA]))
ADDRESS = Row("address", 8, 0, 0, 1, address)
PREFIX = Row("prefix", 97, 0, 0, 1, prefix)
APN = Row("apn", 30, 0, 0, 1, access_point)
STATUS = Row("status", 511, TGPP, 0, 1, one_of(0, 1, 2, 3, 4))
UP = Row("up", 516, TGPP, 0, 1, unsigned)
DOWN = Row("down", 515, TGPP, 0, 1, unsigned)
FLOW = [Row("number", 509, TGPP, 1, 1, unsigned), Row("filters", 507, TGPP, 0, 2, bytes), STATUS,
        Row("usage", 512, TGPP, 0, 1, one_of(0, 1, 2)), UP, DOWN]
COMPONENT = [Row("number", 518, TGPP, 1, 1, unsigned), Row("media", 520, TGPP, 0, 1, unsigned), STATUS, UP, DOWN,
             Row("flows", 519, TGPP, 0, 64, group(FLOW))]
TABLES = {
    CER: [HOST, REALM, AUTH_APPLICATION, VENDOR_APPLICATION],
    DWR: [HOST, REALM],
    DPR: [HOST, REALM],
    CCR: [SESSION_ID, HOST, REALM, KIND, NUMBER, SUBSCRIBERS, ADDRESS, PREFIX, APN],
    AAR: [SESSION_ID, HOST, REALM, ADDRESS, PREFIX, SUBSCRIBERS, APN, Row("components", 517, TGPP, 0, 64, group(COMPONENT))],
    STR: [SESSION_ID, HOST, REALM],
}

# The same in the standards' form, where a Session-Id is a text (8.8).
STRICT_TABLES = {command: [row._replace(read=utf8(512)) if row is SESSION_ID else row for row in rows] for command, rows in TABLES.items()}


# ---- requests

def first(values, name):
    """The value of a row that stands once at most, None where it doesn't stand."""
    return next(iter(values[name]), None)


def subscribers(values):
    """The subscribers of a request, ascending and each once; None where there is none."""
    each = {(first(one, "type"), first(one, "data")) for one in values["subscribers"]}
    return tuple(sorted(each)) or None


def is_filter(octets):
    """Whether the profile takes a filter."""
    return (octets.startswith((b"permit in ", b"permit out ")) and len(octets) <= 255
            and all(0x20 <= octet <= 0x7E for octet in octets))


def judge_components(components):
    """Refuses numbers of components or flows that come twice, then filters."""
    numberings = [components] + [component["flows"] for component in components]
    if any(len({first(one, "number") for one in ones}) < len(ones) for ones in numberings):
        raise Refused(5061)
    flows = [flow for component in components for flow in component["flows"]]
    if not all(is_filter(octets) for flow in flows for octets in flow["filters"]):
        raise Refused(5062)


def judge_header(header):
    """Refuses a header before anything behind it is looked at."""
    if header.version != 1:
        raise Refused(5011)
    if header.is_request and header.is_error:
        raise Refused(3008)


def read_request(frame, tables=TABLES):
    """A request as its table has it, or the first cause to refuse it."""
    header = read_header(frame)
    judge_header(header)
    avps = cut_avps(frame[20:])
    if header.application not in SERVED:
        raise Refused(3007)
    if header.command not in SERVED[header.application]:
        raise Refused(3001)
    values = read_rows(tables[header.command], avps)
    if header.command == AAR:
        judge_components(values["components"])
    return Request(header.command, values)


def first_session_id(frame):
    """The first Session-Id of a frame, None if there is none, its length is none of one, or the AVPs can't be cut."""
    try:
        found = [avp.value for avp in cut_avps(frame[20:]) if (avp.code, avp.vendor) == (263, 0)]
    except Refused:
        return None
    return found[0] if found and 1 <= len(found[0]) <= 512 else None
