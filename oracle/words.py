"""Facts, operations and requests by words, as comments of the stored cases say them: `# initial gw;1 @0.1.0 address=10.0.0.1`.

Of operations a line has the first word, a Session-Id, the tag @NUMBER.COUNTER.SITE, and what it gives. `initial`, `update` and
`terminate` stand for credit control requests, `call` for an AA request and `hang-up` for a session termination request; `partial` is an
initial request of which the realm is not known, `abort` says that the application function was asked to abort the session, and `gx` and
`af` have no facts but those that they name. What it gives is `FIELD=VALUE`; of a gateway's session `told:NAME=PRECEDENCE`, that the
gateway was told this rule, or all parts of the rule in the place of its precedence, and `told:NAME=-`, that it was told to remove it; of a call `COMPONENT:FIELD=VALUE` and
`COMPONENT/FLOW:FIELD=VALUE`, or `removed` in the place of a field, and `aborted`; `end`. `held gx` and `held af` and such words, in which
further tags may stand, say what a state holds of a session.

Of requests of Rx a line has `aar` or `str` and the AVPs: `CODE=TEXT` with `_` for a space, `CODE:NUMBER`, `CODE#DIGITS` for bytes,
`CODE*COUNT` for a filter of so many bytes, `CODE^BYTE` for a filter that ends with this byte, and `CODE(` and `)` round the AVPs of a
group. Codes from 500 to 599 are those of 3GPP; a `VENDOR/` before a code gives it another vendor.
"""
import re

from letters import group, letter, snapshot
from messages import TGPP, avp, ip, message
from plain_facts import ABORTED, Fact, Rule, Session, Tag
from plain_letters import Range, Whole
from plain_requests import AAR, RX, STR
from plain_run import KINDS, fact_octets, in_order, letter_octets, tag_octets
from plain_site import Operation

GIVEN = {
    "gx": "", "initial": "host=gw realm=r last=1", "update": "host=gw realm=r last=2", "partial": "host=gw last=1", "terminate": "end",
    "af": "", "call": "host=af realm=r last=0", "hang-up": "end", "abort": "aborted",
}
CALLS = ("af", "call", "hang-up", "abort")
COMMANDS = {"aar": AAR, "str": STR}


# ---- facts

def tag_of(word):
    """A tag."""
    return Tag(*map(int, word[1:].split(".")))


def prefix_of(word):
    """An IPv6 prefix: its length, and 16 bytes in which those past the length count as zero."""
    digits, length = word.split("/")
    mask = (1 << 128) - (1 << 128 - int(length))
    return int(length), (int(digits.ljust(32, "0"), 16) & mask).to_bytes(16, "big")


def subscribers_of(word):
    """Subscribers with `+` between them."""
    return tuple(sorted((int(kind), name.encode()) for kind, name in (one.split(":") for one in word.split("+"))))


def filters_of(word):
    """Filters with `+` between them, and `_` for each space."""
    return tuple(one.replace("_", " ").encode() for one in word.split("+"))


VALUES = {"address": ip, "prefix": prefix_of, "apn": lambda word: word.lower().encode(), "subscribers": subscribers_of,
          "host": str.encode, "realm": str.encode, "filters": filters_of}


def value_of(field, word):
    """The value of a field; a number where it is none of these."""
    return VALUES.get(field, int)(word)


def told_of(name, says):
    """The rule of a name that a gateway was told, None for none: its precedence, or all parts with strokes between them."""
    if says == "-":
        return None
    if says.isdecimal():
        return Rule(name, 2, (b"permit in ip",), 5, 9, 0, 0, 32000, 64000, int(says))
    status, filters, *numbers = says.split("/")
    return Rule(name, int(status), filters_of(filters), *map(int, numbers))


def fact_of(session, own, word):
    """The fact that a word says."""
    if word == "end":
        return Fact(session, ())
    if word == "aborted":
        return Fact(session, ABORTED)
    if word.startswith("told:"):
        name, says = word[5:].split("=")
        return Fact(session, ("told", name.encode()), own._replace(number=0), told_of(name.encode(), says))
    where, _, says = word.rpartition(":") if re.match(r"\d+(/\d+)?:", word) else ("", "", word)
    place = tuple(int(part) for part in where.split("/") if part)
    if says == "removed":
        return Fact(session, place)
    field, value = says.split("=")
    return Fact(session, place + (field,), own, value_of(field, value))


def facts_of(session, own, words):
    """The facts that words say, each with the tag that stands before it."""
    facts = []
    for word in words:
        if word.startswith("@"):
            own = tag_of(word)
        elif word != "with":
            facts.append(fact_of(session, own, word))
    return facts


def operation_of(line):
    """The operation of a line, None of another."""
    kind, *words = line.split(" ")
    if kind not in GIVEN or len(words) < 2 or not re.fullmatch(r"@\d+\.\d+\.\d+", words[1]):
        return None
    own, session = tag_of(words[1]), Session("af" if kind in CALLS else "gx", words[0].encode())
    facts = facts_of(session, own, GIVEN[kind].split() + words[2:])
    return Operation(own.counter, own.site, tuple(facts), own.number)


def held_of(line):
    """The facts that a line says that a state holds of a session, None of another."""
    if not re.match(r"held (gx|af) ", line):
        return None
    _, kind, name, *words = line.split(" ")
    return facts_of(Session(kind, name.encode()), Tag(0, 1, 0), words)


def held_octets(facts):
    """What is held of a session as bytes."""
    session = facts[0].session
    return group([(fact_octets(fact), tag_octets(fact)) for fact in in_order(facts)], KINDS[session.kind], session.id)


def letter_of(tables, said):
    """The letter of site 1 that has what words say, as bytes and as the plain model has it: operations, or what is held of sessions."""
    if isinstance(said[0], Operation):
        made = Range(1, 1, 0, tuple(said))
        return letter_octets(tables, made), made
    facts = [fact for one in said for fact in one]
    clock = max((fact.tag.counter for fact in facts if fact.tag), default=0)
    groups = sorted(said, key=lambda one: (KINDS[one[0].session.kind], one[0].session.id))
    operations = [Operation(clock if fact.tag is None else fact.tag.counter, 1, (fact,)) for fact in facts]
    body = snapshot([held_octets(one) for one in groups], clock)
    return letter(body, edition=tables["edition"], site=1), Whole(1, 1, tuple(operations), 0)


# ---- requests

def avp_value(sign, said):
    """The value that a word says behind its sign."""
    if sign == "=":
        return said.replace("_", " ").encode()
    if sign == "#":
        return bytes.fromhex(said)
    if sign == "^":
        return b"permit in " + bytes([int(said)])
    return b"permit in ".ljust(int(said), b"x") if sign == "*" else int(said or 0)


def named_avp(code, value):
    """An AVP of a code, before which another vendor may stand."""
    vendor, _, number = code.rpartition("/")
    own = TGPP if 500 <= int(number) < 600 else None
    return avp(int(number), value, int(vendor) if vendor else own)


def avps_of(words):
    """The AVPs that words say, in groups."""
    levels = [[]]
    for word in words:
        if word.endswith("("):
            levels += [word[:-1], []]
        elif word == ")":
            inner, code = levels.pop(), levels.pop()
            levels[-1].append(named_avp(code, b"".join(inner)))
        else:
            code, sign, said = re.fullmatch(r"([\d/]+)([=:#*^])(.*)", word).groups()
            levels[-1].append(named_avp(code, avp_value(sign, said)))
    return levels[0]


def request_of(line):
    """The bytes of the request of a line, None of another."""
    kind, *words = line.split(" ")
    if kind not in COMMANDS or not words or not re.match(r"[\d/]+[=:#*^(]", words[0]):
        return None
    return message(0xC0, COMMANDS[kind], RX, avps_of(words), 5, 6)
