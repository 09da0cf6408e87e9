"""The Failed-AVP of an answer that refuses a request (RFC 6733, 7.1.5 and 7.5): a plain model, apart from the product."""
from messages import avp
from plain_requests import (AAR, COMPONENT, FLOW, RX, SERVED, STRICT_TABLES, SUBSCRIBER_DATA, SUBSCRIBER_TYPE, AUTH_APPLICATION, TGPP, Refused,
                            number, read_header)

FAILED_AVP, SESSION_ID, ADDRESS = 279, 263, 8
UNSUPPORTED, MISSING, TOO_OFTEN, BAD_LENGTH = 5001, 5005, 5009, 5014
LONGEST = 65532
MANDATORY = 0x40

# The rows in groups, and of each type the least bytes of a value (RFC 6733, 4.2 to 4.4; RFC 3162, 2.3); those that stand nowhere have 0.
GROUPS = {(260, 0): [AUTH_APPLICATION], (443, 0): [SUBSCRIBER_TYPE, SUBSCRIBER_DATA], (517, TGPP): COMPONENT, (519, TGPP): FLOW}
LEAST = {258: 4, 263: 1, 264: 1, 296: 1, 415: 4, 416: 4, 450: 4, 444: 1, 8: 4, 97: 2, 30: 1, 509: 4, 511: 4, 512: 4, 515: 4, 516: 4, 518: 4,
         520: 4}

# The codes that are recognized by their vendors, each range with its last (docs/MESSAGES.md).
ETSI, TGPP2 = 13019, 5535
RECOGNIZED = {
    0: [(1, 255), (257, 301), (363, 366), (400, 408), (411, 461), (480, 485), (486, 507), (508, 578), (621, 627), (648, 669)],
    TGPP: [(1, 255), (500, 1099), (1200, 1299), (1400, 1699), (2000, 2399), (2800, 2999), (4200, 4299)],
    ETSI: [(300, 399), (450, 459)],
    TGPP2: [(9010, 9010)],
}


class Spelled:
    """An AVP as it came: its key, and how it is written."""

    def __init__(self, code, flags, vendor, value):
        self.key, self.value = (code, vendor or 0), value
        self.flags, self.vendor = flags, vendor

    def written(self, value=None):
        """Its bytes, with another value or its own."""
        return avp(self.key[0], self.value if value is None else value, self.vendor, self.flags & 0x60)


def cut(octets):
    """The AVPs of bytes, and where no more can be cut, what is left."""
    avps = []
    while octets:
        padded = octets[:12].ljust(12, b"\0")
        has_vendor = padded[4] & 0x80 != 0
        head, length = 12 if has_vendor else 8, number(padded[5:8])
        if len(octets) < 8 or not head <= length <= len(octets):
            return avps, octets
        avps.append(Spelled(number(padded[:4]), padded[4], number(padded[8:12]) if has_vendor else None, octets[head:length]))
        octets = octets[length + -length % 4:]
    return avps, b""


def example(row):
    """The least value of an AVP."""
    return avp(row.code, bytes(LEAST.get(row.code, 0)), row.vendor or None, 0x40)


def by_rows(rows, avps):
    """The code by which rows refuse AVPs and the bytes of the one at fault, None where they don't."""
    for row in rows:
        there = [one for one in avps if one.key == (row.code, row.vendor)]
        if row.most is not None and len(there) > row.most:
            return TOO_OFTEN, there[row.most].written()
        if len(there) < row.least:
            return MISSING, example(row)
        for one in there:
            if (found := by_value(row, one)) is not None:
                return found
    return None


def by_value(row, one):
    """The same by one value; what is at fault in a group stands in it alone."""
    try:
        row.read(one.value)
    except Refused as refused:
        if (rows := GROUPS.get(one.key)) is None:
            return refused.code, one.written()
        inside, left = cut(one.value)
        if left:
            return BAD_LENGTH, one.written(b"")
        code, failed = by_rows(rows, inside)
        return code, one.written(failed)
    return None


def is_recognized(key):
    """Whether a standard whose AVPs requests may have was given this code."""
    return any(first <= key[0] <= last for first, last in RECOGNIZED.get(key[1], ()))


def unsupported(rows, avps):
    """The bytes of the first AVP with M that isn't recognized, in the groups in which it stands; None where there is none. Those groups are
    looked into that the rows have."""
    for one in avps:
        if one.flags & MANDATORY and not is_recognized(one.key):
            return one.written()
        if one.key in GROUPS and any((row.code, row.vendor) == one.key for row in rows):
            inside, left = cut(one.value)
            found = None if left else unsupported(GROUPS[one.key], inside)
            if found is not None:
                return one.written(found)
    return None


def has_unsupported(request):
    """Whether a request that is served, and can be cut into AVPs, has an AVP with M that isn't recognized."""
    header = read_header(request)
    return header.command in SERVED.get(header.application, ()) and unsupported(STRICT_TABLES[header.command], cut(request[20:])[0]) is not None


def is_ill_formed(request):
    """Whether a request that is served, and has sessions, has one Session-Id alone, which isn't UTF-8."""
    header, named = read_header(request), [one.value for one in cut(request[20:])[0] if one.key == (SESSION_ID, 0)]
    served = header.command in SERVED.get(header.application, ())
    if len(named) != 1 or not served or all(row.code != SESSION_ID for row in STRICT_TABLES[header.command]):
        return False
    try:
        named[0].decode()
    except UnicodeDecodeError:
        return True
    return False


def uncut(request, left):
    """The header of an AVP whose length is wrong, with the least value of its type."""
    padded = left[:12].ljust(12, b"\0")
    vendor = number(padded[8:12]) if padded[4] & 0x80 else None
    header = read_header(request)
    served = header.command in SERVED.get(header.application, ())
    known = served and any((row.code, row.vendor) == (number(padded[:4]), vendor or 0) for row in STRICT_TABLES[header.command])
    return avp(number(padded[:4]), bytes(LEAST.get(number(padded[:4]), 0) if known else 0), vendor, padded[4] & 0x60)


def at_fault(request, code):
    """The bytes of the AVP at fault of a request that was refused with a code, None where there is none."""
    header = read_header(request)
    avps, left = cut(request[20:])
    if left:
        return uncut(request, left) if code == BAD_LENGTH else None
    if header.command not in SERVED.get(header.application, ()):
        return None
    if code == UNSUPPORTED:
        return unsupported(STRICT_TABLES[header.command], avps)
    found = by_rows(STRICT_TABLES[header.command], avps)
    if found is not None:
        return found[1] if found[0] == code else None
    return avp(ADDRESS, bytes(4)) if code == MISSING and (header.command, header.application) == (AAR, RX) else None


def failed_avp(request, code):
    """The Failed-AVP of an answer with a Result-Code, empty where it has none."""
    failed = at_fault(request, code)
    return b"" if failed is None or len(failed) > LONGEST else avp(FAILED_AVP, failed)
