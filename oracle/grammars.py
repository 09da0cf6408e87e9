"""Messages of the standards' form, judged by the standards' own grammars as a strict reader does: answers by the request that they answer.

A grammar is its standard's text: `<` AVP `>` stands first, `{` AVP `}` has to stand, `[` AVP `]` may; each once, or with `*` any number of
times. A message may have an AVP that its grammar doesn't name only where that ends in `*[ AVP ]`; there too it isn't to have M, since a
reader that doesn't know it refuses the message. Every AVP is of its type and has the flags of its table.
"""
import collections
import ipaddress
import re

GX, RX, TGPP = 16777238, 16777236, 10415

# RFC 6733, 5.3.2, 5.4.2, 5.5.1, 5.5.2 and 7.2; TS 29.212, 5.6.3 and 5.6.4, with RFC 8506, 3.2; TS 29.214, 5.6.2, 5.6.5 and 5.6.7. Of those of
# 3GPP without the AVPs that this product writes nowhere.
MESSAGES = {
    "answer-message": """
        0*1< Session-Id > { Origin-Host } { Origin-Realm } { Result-Code } [ Origin-State-Id ] [ Error-Message ] [ Error-Reporting-Host ]
        [ Failed-AVP ] [ Experimental-Result ] *[ Proxy-Info ] *[ AVP ]""",
    "CEA": """
        { Result-Code } { Origin-Host } { Origin-Realm } 1*{ Host-IP-Address } { Vendor-Id } { Product-Name } [ Origin-State-Id ]
        [ Error-Message ] [ Failed-AVP ] *[ Supported-Vendor-Id ] *[ Auth-Application-Id ] *[ Vendor-Specific-Application-Id ]
        [ Firmware-Revision ] *[ AVP ]""",
    "DPA": "{ Result-Code } { Origin-Host } { Origin-Realm } [ Error-Message ] [ Failed-AVP ] *[ AVP ]",
    "DWA": "{ Result-Code } { Origin-Host } { Origin-Realm } [ Error-Message ] [ Failed-AVP ] [ Origin-State-Id ] *[ AVP ]",
    "DWR": "{ Origin-Host } { Origin-Realm } [ Origin-State-Id ] *[ AVP ]",
    "CCA": """
        < Session-Id > { Auth-Application-Id } { Origin-Host } { Origin-Realm } [ Result-Code ] [ Experimental-Result ] { CC-Request-Type }
        { CC-Request-Number } [ Origin-State-Id ] *[ Charging-Rule-Remove ] *[ Charging-Rule-Install ] *[ QoS-Information ]
        [ Default-EPS-Bearer-QoS ] [ Error-Message ] [ Error-Reporting-Host ] *[ Failed-AVP ] *[ Proxy-Info ] *[ AVP ]""",
    "RAR": """
        < Session-Id > { Auth-Application-Id } { Origin-Host } { Origin-Realm } { Destination-Realm } { Destination-Host }
        { Re-Auth-Request-Type } [ Origin-State-Id ] *[ Charging-Rule-Remove ] *[ Charging-Rule-Install ] [ Default-EPS-Bearer-QoS ]
        *[ QoS-Information ] *[ Proxy-Info ] *[ AVP ]""",
    "AAA": """
        < Session-Id > { Auth-Application-Id } { Origin-Host } { Origin-Realm } [ Result-Code ] [ Experimental-Result ] [ Error-Message ]
        [ Error-Reporting-Host ] *[ Failed-AVP ] [ Origin-State-Id ] *[ Proxy-Info ] *[ AVP ]""",
    "STA": """
        < Session-Id > { Origin-Host } { Origin-Realm } [ Result-Code ] [ Experimental-Result ] [ Error-Message ] [ Error-Reporting-Host ]
        *[ Failed-AVP ] [ Origin-State-Id ] *[ Proxy-Info ] *[ AVP ]""",
    "ASR": """
        < Session-Id > { Origin-Host } { Origin-Realm } { Destination-Realm } { Destination-Host } { Auth-Application-Id } { Abort-Cause }
        [ Origin-State-Id ] *[ Proxy-Info ] *[ AVP ]""",
}

# RFC 6733, 6.11, 6.7.2, 7.5 and 7.6; TS 29.212, 5.3.2, 5.3.4, 5.3.5, 5.3.16, 5.3.32, 5.3.48 and 5.3.53
GROUPS = {
    "Experimental-Result": "{ Vendor-Id } { Experimental-Result-Code }",
    "Vendor-Specific-Application-Id": "{ Vendor-Id } [ Auth-Application-Id ] [ Acct-Application-Id ]",
    "Proxy-Info": "{ Proxy-Host } { Proxy-State } *[ AVP ]",
    "Failed-AVP": "1*{ AVP }",
    "Charging-Rule-Install": "*[ Charging-Rule-Definition ] *[ Charging-Rule-Name ] *[ AVP ]",
    "Charging-Rule-Remove": "*[ Charging-Rule-Name ] *[ AVP ]",
    "Charging-Rule-Definition": """
        { Charging-Rule-Name } *[ Flow-Information ] [ Flow-Status ] [ QoS-Information ] [ Precedence ] *[ AVP ]""",
    "Flow-Information": "[ Flow-Description ] [ Flow-Direction ] *[ AVP ]",
    "QoS-Information": """
        [ QoS-Class-Identifier ] [ Max-Requested-Bandwidth-UL ] [ Max-Requested-Bandwidth-DL ] [ Guaranteed-Bitrate-UL ]
        [ Guaranteed-Bitrate-DL ] [ Allocation-Retention-Priority ] [ APN-Aggregate-Max-Bitrate-UL ] [ APN-Aggregate-Max-Bitrate-DL ]
        *[ AVP ]""",
    "Allocation-Retention-Priority": "{ Priority-Level } [ Pre-emption-Capability ] [ Pre-emption-Vulnerability ]",
    "Default-EPS-Bearer-QoS": "[ QoS-Class-Identifier ] [ Allocation-Retention-Priority ] *[ AVP ]",
}

# Name, code, vendor, type and whether M is set, never set or either (RFC 6733, 4.5; RFC 8506, 8; TS 29.212, table 5.3.0.1; TS 29.214, table
# 5.3.0.1). Of an Enumerated its values.
AVPS = [
    ("Host-IP-Address", 257, 0, "Address", True), ("Auth-Application-Id", 258, 0, "Unsigned32", True),
    ("Acct-Application-Id", 259, 0, "Unsigned32", True), ("Vendor-Specific-Application-Id", 260, 0, "Grouped", True),
    ("Session-Id", 263, 0, "UTF8String", True), ("Origin-Host", 264, 0, "DiameterIdentity", True),
    ("Supported-Vendor-Id", 265, 0, "Unsigned32", True), ("Vendor-Id", 266, 0, "Unsigned32", True),
    ("Firmware-Revision", 267, 0, "Unsigned32", False), ("Result-Code", 268, 0, "Unsigned32", True),
    ("Product-Name", 269, 0, "UTF8String", False), ("Origin-State-Id", 278, 0, "Unsigned32", True),
    ("Failed-AVP", 279, 0, "Grouped", True), ("Proxy-Host", 280, 0, "DiameterIdentity", True),
    ("Error-Message", 281, 0, "UTF8String", False), ("Destination-Realm", 283, 0, "DiameterIdentity", True),
    ("Proxy-Info", 284, 0, "Grouped", True), ("Re-Auth-Request-Type", 285, 0, (0, 1), True),
    ("Destination-Host", 293, 0, "DiameterIdentity", True), ("Error-Reporting-Host", 294, 0, "DiameterIdentity", False),
    ("Origin-Realm", 296, 0, "DiameterIdentity", True), ("Experimental-Result", 297, 0, "Grouped", True),
    ("Experimental-Result-Code", 298, 0, "Unsigned32", True), ("Proxy-State", 33, 0, "OctetString", True),
    ("CC-Request-Number", 415, 0, "Unsigned32", True), ("CC-Request-Type", 416, 0, (1, 2, 3, 4), True),
    ("Abort-Cause", 500, TGPP, (0, 1, 2, 3, 4), True), ("Flow-Description", 507, TGPP, "IPFilterRule", True),
    ("Flow-Status", 511, TGPP, (0, 1, 2, 3, 4), True), ("Max-Requested-Bandwidth-DL", 515, TGPP, "Unsigned32", True),
    ("Max-Requested-Bandwidth-UL", 516, TGPP, "Unsigned32", True), ("Charging-Rule-Install", 1001, TGPP, "Grouped", True),
    ("Charging-Rule-Remove", 1002, TGPP, "Grouped", True), ("Charging-Rule-Definition", 1003, TGPP, "Grouped", True),
    ("Charging-Rule-Name", 1005, TGPP, "OctetString", True), ("Precedence", 1010, TGPP, "Unsigned32", True),
    ("QoS-Information", 1016, TGPP, "Grouped", True), ("Guaranteed-Bitrate-DL", 1025, TGPP, "Unsigned32", True),
    ("Guaranteed-Bitrate-UL", 1026, TGPP, "Unsigned32", True), ("QoS-Class-Identifier", 1028, TGPP, tuple(range(1, 10)), True),
    ("Allocation-Retention-Priority", 1034, TGPP, "Grouped", False), ("APN-Aggregate-Max-Bitrate-DL", 1040, TGPP, "Unsigned32", False),
    ("APN-Aggregate-Max-Bitrate-UL", 1041, TGPP, "Unsigned32", False), ("Priority-Level", 1046, TGPP, "Unsigned32", False),
    ("Pre-emption-Capability", 1047, TGPP, (0, 1), False), ("Pre-emption-Vulnerability", 1048, TGPP, (0, 1), False),
    ("Default-EPS-Bearer-QoS", 1049, TGPP, "Grouped", False), ("Flow-Information", 1058, TGPP, "Grouped", False),
    ("Flow-Direction", 1080, TGPP, (0, 1, 2, 3), False),
]
TABLE = {(code, vendor): (name, kind, mandatory) for name, code, vendor, kind, mandatory in AVPS}

# The commands by code and application: the names of their answer and of their request
COMMANDS = {
    (257, 0): ("CEA", None), (280, 0): ("DWA", "DWR"), (282, 0): ("DPA", None), (272, GX): ("CCA", None), (258, GX): (None, "RAR"),
    (265, RX): ("AAA", None), (275, RX): ("STA", None), (274, RX): (None, "ASR"),
}

# The refusals of a request that can't be read, and those that tell of an AVP by a Failed-AVP (RFC 6733, 7.1.5)
UNREAD = (5001, 5004, 5005, 5009, 5011, 5014)
TOLD_BY_AVP = (5001, 5004, 5005, 5008, 5009, 5014)

LONGEST_SESSION = 512

# The answers of the base protocol have no Session-Id.
SESSIONLESS = ("CEA", "DWA", "DPA")

ITEM = re.compile(r"(\d*\*\d*)?([<{\[]) ([\w-]+) [>}\]]")


class Fault(Exception):
    """What is wrong with a message."""


def require(is_so, what):
    """Where something isn't so, the message is at fault."""
    if not is_so:
        raise Fault(what)


Avp = collections.namedtuple("Avp", "code vendor flags value")
Message = collections.namedtuple("Message", "flags command application ids avps")


def cut(data):
    """The AVPs of bytes (RFC 6733, 4.1), with all their padding."""
    avps = []
    while data:
        require(len(data) >= 8, "an AVP is cut off")
        code, flags, length = int.from_bytes(data[:4], "big"), data[4], int.from_bytes(data[5:8], "big")
        head = 12 if flags & 0x80 else 8
        require(head <= length and length + -length % 4 <= len(data), f"the length of AVP {code}")
        require(not flags & 0x1F, f"reserved bits of AVP {code}")
        vendor = int.from_bytes(data[8:12], "big") if flags & 0x80 else 0
        require(bool(vendor) == bool(flags & 0x80), f"AVP {code} has V and vendor 0")
        require(not any(data[length:length + -length % 4]), f"padding of AVP {code}")
        avps.append(Avp(code, vendor, flags, data[head:length]))
        data = data[length + -length % 4:]
    return avps


def read(data):
    """A message (3)."""
    require(len(data) >= 20 and data[0] == 1, "no message of version 1")
    require(len(data) == int.from_bytes(data[1:4], "big") and len(data) % 4 == 0, "the length of the message")
    require(not data[4] & 0x0F, "reserved bits of the message")
    numbers = [int.from_bytes(data[at:at + 4], "big") for at in (8, 12, 16)]
    return Message(data[4], int.from_bytes(data[5:8], "big"), numbers[0], numbers[1:], cut(data[20:]))


def is_filter(text):
    """Whether a text is a filter to the terminal, as a Flow-Information has it (RFC 6733, 4.3.1; TS 29.212, 5.4.2)."""
    words = text.split(" ")
    if words[:2] != ["permit", "out"] or len(words) < 7 or words[3] != "from":
        return False
    return re.fullmatch(r"ip|\d{1,3}", words[2]) is not None and "to" in words[5:]


def is_utf8(value):
    """Whether bytes are UTF-8 (4.3.1)."""
    try:
        value.decode("utf-8")
    except UnicodeDecodeError:
        return False
    return True


def judge_value(name, kind, value):
    """Whether a value is of its type (4.2 to 4.4)."""
    if isinstance(kind, tuple):
        require(len(value) == 4 and int.from_bytes(value, "big") in kind, f"{name} is {value.hex()}")
    elif kind == "Unsigned32":
        require(len(value) == 4, f"{name} has {len(value)} bytes")
    elif kind == "Address":
        require(len(value) in (6, 18) and value[:2] in (b"\0\1", b"\0\2"), f"{name} is {value.hex()}")
        ipaddress.ip_address(value[2:])
    elif kind in ("UTF8String", "DiameterIdentity", "IPFilterRule"):
        require(len(value) > 0, f"{name} is empty")
        require(kind != "UTF8String" or is_utf8(value), f"{name} is no UTF-8")
    elif kind == "Grouped" and name != "Failed-AVP":
        judge_all(name, GROUPS[name], cut(value))


def judge_all(where, grammar, avps):
    """Whether AVPs keep a grammar."""
    names = []
    for avp in avps:
        name, kind, mandatory = TABLE.get((avp.code, avp.vendor), (None, None, None))
        names.append(name)
        if name is None:
            require(not avp.flags & 0x40, f"{where}: AVP {avp.code} of {avp.vendor}, which has M, has no name here")
            continue
        require(bool(avp.flags & 0x40) == mandatory and not avp.flags & 0x20, f"{where}: the flags of {name}")
        judge_value(name, kind, avp.value)
    items, is_open = ITEM.findall(grammar), False
    require("".join(grammar.split()) == "".join("".join((count, sign, name, {"<": ">", "{": "}", "[": "]"}[sign]))
                                                for count, sign, name in items), f"{where}: its grammar can't be read")
    for count, sign, name in items:
        if name == "AVP":
            is_open = True
            require(sign == "[" or avps, f"{where} is empty")
            continue
        least = 0 if sign == "[" or count.startswith(("0*", "*")) else 1
        most = None if count.endswith("*") else 1
        found = names.count(name)
        require(found >= least, f"{where} has no {name}")
        require(most is None or found <= most, f"{where} has {name} {found} times")
        require(sign != "<" or not found or names[0] == name, f"{where}: {name} isn't its first AVP")
    known = {name for _, _, name in items}
    for name in names:
        require(name in known or (is_open and name is None), f"{where} has {name}, which its grammar doesn't name")


def first(avps, code, vendor=0):
    """The first value at a key."""
    return next((avp.value for avp in avps if (avp.code, avp.vendor) == (code, vendor)), None)


def result_of(avps):
    """The result of an answer: one of 3GPP's, or of the base protocol's."""
    if (group := first(avps, 297)) is not None:
        return int.from_bytes(first(cut(group), 298), "big")
    return int.from_bytes(first(avps, 268) or b"", "big")


def judge_failed(result, avps):
    """A refusal that is due to an AVP has it in a Failed-AVP, and no other answer has one (RFC 6733, 7.1.5 and 7.5)."""
    failed = [avp.value for avp in avps if (avp.code, avp.vendor) == (279, 0)]
    require(len(failed) == (result in TOLD_BY_AVP), f"{result} has {len(failed)} Failed-AVPs")
    require(all(len(cut_loosely(value)) == 1 for value in failed), "its Failed-AVP has more than one AVP")


def judge_flows(avps):
    """Each filter is one to the terminal, and says in which direction packets go (TS 29.212, 5.3.53 and 5.3.65). One whose words aren't those
    of RFC 6733 is told as it came."""
    for install in (avp for avp in avps if avp.code == 1001):
        for definition in (avp for avp in cut(install.value) if avp.code == 1003):
            for flow in (avp for avp in cut(definition.value) if avp.code == 1058):
                text = first(cut(flow.value), 507, TGPP).decode(errors="backslashreplace")
                direction = first(cut(flow.value), 1080, TGPP)
                require(direction in (b"\0\0\0\1", b"\0\0\0\2"), f"the filter {text!r} has no Flow-Direction")
                require(is_filter(text) or not is_filter(text.replace("permit in ", "permit out ", 1)), f"the filter {text!r} isn't turned")


def kind_of(message):
    """The name of the grammar of a message that the product writes."""
    answer, request = COMMANDS.get((message.command, message.application), (None, None))
    if message.flags & 0x80:
        return request
    return "answer-message" if message.flags & 0x20 else answer


def try_cut(data):
    """The AVPs of a request, None where they can't be cut."""
    try:
        return cut_loosely(data)
    except Fault:
        return None


def cut_loosely(data):
    """As `cut`, whatever is reserved."""
    avps = []
    while data:
        require(len(data) >= 8, "cut off")
        code, flags, length = int.from_bytes(data[:4], "big"), data[4], int.from_bytes(data[5:8], "big")
        head = 12 if flags & 0x80 else 8
        require(head <= length <= len(data), "length")
        vendor = int.from_bytes(data[8:12], "big") if flags & 0x80 else 0
        avps.append(Avp(code, vendor, flags, data[head:length]))
        data = data[length + -length % 4:]
    return avps


def lacks_session(message, session):
    """Whether the answer of a command can't be composed for want of a Session-Id: only those of the base protocol have none (5.3.2, 5.4.2,
    5.5.2), and it is what the request has, a text of so many bytes (8.8)."""
    known = session is not None and 1 <= len(session) <= LONGEST_SESSION and is_utf8(session)
    return not known and COMMANDS.get((message.command, message.application), (None,))[0] not in SESSIONLESS


def judge_answer(request, data):
    """An answer, by the bytes of its request. It gives the name of its grammar."""
    answer = read(data)
    asked = try_cut(request[20:])
    require(not answer.flags & 0x90, "an answer has R or T")
    require(answer.flags & 0x40 == request[4] & 0x40, "P isn't the request's")
    require(data[5:20] == request[5:20], "the command, the application or an identifier isn't the request's")
    kind = kind_of(answer)
    result = result_of(answer.avps)
    session = first(asked or [], 263)
    lacks = lacks_session(answer, session)
    require(bool(answer.flags & 0x20) == (result // 1000 == 3 or lacks), f"the result {result} and E don't fit")
    require(result in UNREAD or result // 1000 == 3 or not lacks, f"{result} answers a request without a Session-Id")
    judge_failed(result, answer.avps)
    if kind is None:  # of no command of the product
        require(result in UNREAD, f"{result} answers command {answer.command} of {answer.application}")
        return "another"
    judge_all(kind, MESSAGES[kind], answer.avps)
    require((first(answer.avps, 268) is None) != (first(answer.avps, 297) is None), "it hasn't one result")
    if first(answer.avps, 263) is not None:
        require(first(answer.avps, 263) == session, "its Session-Id isn't the request's")
    ways = [(avp.flags & 0xE0, avp.value) for avp in asked or [] if (avp.code, avp.vendor) == (284, 0)]
    require([(avp.flags, avp.value) for avp in answer.avps if avp.code == 284] == ways, "its Proxy-Infos aren't the request's")
    if kind == "CCA":
        for code in (416, 415):
            given = first(asked or [], code)
            known = given is not None and len(given) == 4 and (code == 415 or 1 <= int.from_bytes(given, "big") <= 4)
            require(not known or first(answer.avps, code) == given, f"AVP {code} isn't the request's")
    if kind == "CEA":
        require(first(answer.avps, 265) == TGPP.to_bytes(4, "big"), "3GPP isn't a vendor that it supports")
    judge_flows(answer.avps)
    return kind


def judge_request(data):
    """A request that the site makes. It gives the name of its grammar."""
    request = read(data)
    kind = kind_of(request)
    require(kind is not None and request.flags & 0x80 and not request.flags & 0x20, "it isn't one that a site makes")
    judge_all(kind, MESSAGES[kind], request.avps)
    judge_flows(request.avps)
    return kind
