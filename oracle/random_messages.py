"""Draws Diameter messages from a seed: good ones from small pools, so that sessions meet, and broken ones."""
import copy
import random
from dataclasses import dataclass, field

from plain_requests import AAR, BASE, CCR, CER, DPR, DWR, GX, RELAY, RX, STR, TGPP

RAR, ASR = 258, 274
MOST_NUMBER = 0xFFFFFFFF
GX_SESSIONS = [b"gw;1;1", b"gw;1;2", b"gw;1", b"g w\\\xff"]
AF_SESSIONS = [b"af;1", b"af;2", b"af;1/1", b"gw;1;1", b"a\x7ff\\"]
HOSTS, REALMS = [b"gw", b"af", b"g"], [b"r", b"q"]
ADDRESSES = [b"\x0a\0\0\x01", b"\x0a\0\0\x01", b"\x0a\0\0\x02", b"\x0a\0\x01\0"]
USER = b"\x20\x01\x0d\xb8\0\0\0\1"
# prefixes of gateways' sessions and of calls, of which many cover one another; some have bits past their length
PREFIXES = [b"\0\x40" + USER, b"\0\x40" + USER, b"\xff\x40" + USER[:7] + b"\2", b"\0\x38" + USER[:7], b"\0\x3d" + USER,
            b"\1\x20" + USER[:4], b"\0\0", b"\0\x80" + USER + bytes(7) + b"\5", b"\0\x20" + USER[:3] + b"\xb9"]
CALLERS = [b"\0\x80" + USER + bytes(7) + b"\5", b"\0\x80" + USER[:7] + b"\2" + bytes(7) + b"\5", b"\0\x40" + USER,
           b"\0\x3d" + USER, b"\0\x80" + USER + bytes(7) + b"\6", b"\0\x38" + USER]
APNS = [b"IMS", b"ims", b"net", b"NET", b"Net", b"net"]
SUBSCRIBERS = [(1, b"001"), (0, b"155"), (2, b"a@r"), (1, b"155")]
NUMBERS = [0, 1, 2, 3, 4, MOST_NUMBER]
FILTERS = [b"permit in ip", b"permit out ip", b"permit in ", b"permit out 17 from any", b"permit in ~"]
BAD_FILTERS = [b"", b"deny in ip", b"permit in", b"permit  in ip", b"Permit in ip", b"permit out \x7f",
               b"permit in \x1f", b"permit out \xc3\xbc", b"permit in " + b"x" * 246]
BAD_PREFIXES = [b"", b"\0", b"\0\x01", b"\0\x40" + bytes(7), b"\0\x41" + bytes(8), b"\0\x81" + bytes(16), b"\0\xff" + bytes(16),
                b"\0\x80" + bytes(15), b"\0\x80" + bytes(17), b"\0\0" + bytes(17)]
SIZES = (0, 3, 5, 8)
STRAINS = {416: [0, 4], 450: [5, 4], 511: [5], 512: [3], 8: [b"", b"\x0a\0\0", b"\x0a\0\0\x01\0"], 97: BAD_PREFIXES * 2, 507: BAD_FILTERS * 2,
           263: [b"", b"x" * 256, b"x" * 512, b"x" * 513], 264: [b"", b"x" * 255, b"x" * 256], 296: [b"", b"x" * 256],
           30: [b"", b"x" * 256], 444: [b"", b"x" * 256]}
RATES = [0, 1, 5000, 41000, 64000, 64001, MOST_NUMBER]


@dataclass
class Part:
    """An AVP that is drawn: a number, a text or a group.

    Its length field may be off, its padding other than zeros, or absent.
    """
    code: int
    value: object
    vendor: int | None = None
    flags: int = 0x40
    off: int = 0
    filler: int = 0
    bare: bool = False

    def octets(self):
        """The AVP as bytes (RFC 6733, 4.1)."""
        value = value_octets(self.value)
        vendor = b"" if self.vendor is None else self.vendor.to_bytes(4, "big")
        length = 8 + len(vendor) + len(value)
        flags = self.flags & 0x7F | (0x80 if vendor else 0)
        head = self.code.to_bytes(4, "big") + bytes([flags]) + ((length + self.off) % 2**24).to_bytes(3, "big")
        padding = b"" if self.bare else bytes([self.filler]) * (-length % 4)
        return head + vendor + value + padding


@dataclass
class Drawn:
    """A message that is drawn."""
    command: int
    application: int
    parts: list
    flags: int = 0xC0
    version: int = 1
    identifiers: tuple = field(default=(1, 2))

    def octets(self):
        """The message as bytes (RFC 6733, 3)."""
        body = b"".join(part.octets() for part in self.parts)
        body += bytes(-len(body) % 4)
        rest = (self.command.to_bytes(3, "big"), self.application, *self.identifiers)
        words = [rest[0]] + [word.to_bytes(4, "big") for word in rest[1:]]
        head = bytes([self.version]) + (20 + len(body)).to_bytes(3, "big") + bytes([self.flags])
        return head + b"".join(words) + body


def value_octets(value):
    """The value of an AVP as bytes."""
    if isinstance(value, list):
        return b"".join(part.octets() for part in value)
    return value.to_bytes(4, "big") if isinstance(value, int) else value


def tgpp(code, value):
    """An AVP of 3GPP."""
    return Part(code, value, TGPP)


def owners(parts):
    """The lists of AVPs in a message, groups within groups too."""
    return [parts] + [inner for part in parts if isinstance(part.value, list) for inner in owners(part.value)]


class Draw:
    """Draws from a seed."""

    def __init__(self, seed, apns=APNS, hosts=HOSTS, functions=HOSTS):
        self.random, self.apns, self.hosts, self.functions = random.Random(seed), apns, hosts, functions

    def chance(self, percent):
        """Whether something of so many percent happens."""
        return self.random.randrange(100) < percent

    def one(self, pool):
        """One of a pool."""
        return self.random.choice(pool)

    def some(self, percent, part):
        """A list of one part or of none."""
        return [part] if self.chance(percent) else []

    # ---- good messages

    def origin(self, hosts=None):
        """Origin-Host, of these or of those of gateways, and Origin-Realm."""
        return [Part(264, self.one(hosts or self.hosts)), Part(296, self.one(REALMS))]

    def user(self, address, prefix, subscribers, apn, prefixes=PREFIXES):
        """Who is meant: address, prefix, subscribers and access point, each by its chance."""
        parts = [part for _ in range(self.one([1, 1, 2, 3])) for part in self.some(subscribers, self.subscriber())]
        parts += self.some(address, Part(8, self.one(ADDRESSES))) + self.some(prefix, Part(97, self.one(prefixes)))
        return parts + self.some(apn, Part(30, b"none" if self.chance(10) else self.one(self.apns)))

    def subscriber(self):
        """A Subscription-Id."""
        kind, data = self.one(SUBSCRIBERS)
        return Part(443, [Part(450, kind), Part(444, data)])

    def ccr(self, kind=None, session=None, number=None):
        """A credit control request (TS 29.212, 5.6.2)."""
        kind = kind or self.random.choices((1, 2, 3), (10, 9, 2))[0]
        chances = {1: (84, 38, 95, 96), 2: (30, 15, 35, 30), 3: (20, 10, 20, 40)}[kind]
        if number is None:
            number = 0 if kind == 1 and self.chance(70) else self.one(NUMBERS)
        parts = [Part(263, session or self.one(GX_SESSIONS))] + self.some(70, Part(258, GX)) + self.origin()
        return Drawn(CCR, GX, parts + [Part(416, kind), Part(415, number)] + self.user(*chances))

    def at_prefix(self, kind, session, number, bits, address=()):
        """A credit control request that gives a prefix of so many bits, and an address or none."""
        prefix = Part(97, bytes([0, bits]) + USER[:-(-bits // 8)])
        user = [Part(8, one) for one in address] + [prefix] + ([self.subscriber(), Part(30, self.apns[0])] if kind == 1 else [])
        return Drawn(CCR, GX, [Part(263, session)] + self.origin() + [Part(416, kind), Part(415, number)] + user)

    def bandwidth(self):
        """Max-Requested-Bandwidth-UL and -DL, each or none."""
        return self.some(30, tgpp(516, self.one(RATES))) + self.some(30, tgpp(515, self.one(RATES)))

    def flow(self, number):
        """A Media-Sub-Component (TS 29.214, 5.3.18)."""
        parts = [tgpp(509, number)] + [tgpp(507, self.one(FILTERS)) for _ in range(self.one([0, 1, 1, 1, 2]))]
        parts += self.some(20, tgpp(511, self.one([0, 1, 2, 3, 4]))) + self.some(30, tgpp(512, self.one([0, 1, 2, 2])))
        return tgpp(519, parts + self.bandwidth())

    def component(self, number):
        """A Media-Component-Description (TS 29.214, 5.3.16)."""
        parts = [tgpp(518, number)] + self.some(65, tgpp(520, 0 if self.chance(93) else self.one([1, 9, MOST_NUMBER])))
        parts += self.some(25, tgpp(511, self.one([0, 1, 2, 3, 4]))) + self.bandwidth()
        numbers = self.random.sample([1, 2, 3, MOST_NUMBER], self.one([0, 1, 1, 2, 3]))
        return tgpp(517, parts + [self.flow(one) for one in numbers])

    def aar(self, session=None):
        """An AA request (TS 29.214, 5.6.1)."""
        parts = [Part(263, session or self.one(AF_SESSIONS))] + self.some(70, Part(258, RX)) + self.origin(self.functions)
        numbers = self.random.sample([0, 1, 2, 10], self.one([0, 1, 1, 1, 2]))
        return Drawn(AAR, RX, parts + self.user(68, 18, 25, 20, CALLERS) + [self.component(one) for one in numbers])

    def many_flows(self, session, address, component, count):
        """An AA request of a component of many flows."""
        flows = [tgpp(519, [tgpp(509, number), tgpp(507, FILTERS[2])]) for number in range(1, count + 1)]
        parts = [Part(263, session)] + self.origin(self.functions) + [Part(8, address)]
        return Drawn(AAR, RX, parts + [tgpp(517, [tgpp(518, component), tgpp(520, 0)] + flows)])

    def within(self, bits, octets):
        """A prefix that one covers: itself, or a longer one that begins with it."""
        if self.chance(30):
            return Part(97, bytes([0, bits]) + octets[:-(-bits // 8)])
        longer = self.one([one for one in (32, 56, 61, 64, 128, 128) if one >= bits])
        return Part(97, bytes([0, longer]) + (octets[:15] + (b"\5" if bits < 126 else octets[15:]))[:-(-longer // 8)])

    def where(self, view, session):
        """What an AA request gives to be bound to a gateway's session: its address, a prefix that it has, or both."""
        address, prefix = view.value(session, "address"), view.value(session, "prefix")
        parts = [] if address is None else [Part(8, address)]
        parts += [] if prefix is None else [self.within(*prefix)]
        return parts if self.chance(50) else [self.one(parts)]

    def one_flow(self, session, where, component, removed):
        """An AA request of a component of one flow, and of components that are removed; `where` has the address or what it gives."""
        parts = [tgpp(509, 1)] + [tgpp(507, text) for text in self.random.sample(FILTERS, self.one([1, 2]))]
        parts += self.some(20, tgpp(511, self.one([0, 1, 3]))) + self.some(50, tgpp(512, self.one([0, 1, 2, 2])))
        flow = tgpp(519, parts + self.bandwidth())
        own = self.some(50, tgpp(511, self.one([0, 1, 3]))) + self.bandwidth()
        gone = [tgpp(517, [tgpp(518, number), tgpp(520, 9), tgpp(511, 4)]) for number in removed]
        parts = [Part(263, session)] + self.origin(self.functions) + ([Part(8, where)] if isinstance(where, bytes) else where)
        return Drawn(AAR, RX, parts + gone + [tgpp(517, [tgpp(518, component), tgpp(520, 0), flow] + own)])

    def flow_removed(self, session, component):
        """An AA request by which a flow is removed, and its component described."""
        parts = [tgpp(518, component), tgpp(519, [tgpp(509, 1), tgpp(511, 4)])]
        return Drawn(AAR, RX, [Part(263, session)] + self.origin(self.functions) + [tgpp(517, parts)])

    def str_(self, session=None):
        """A session termination request (TS 29.214, 5.6.4)."""
        return Drawn(STR, RX, [Part(263, session or self.one(AF_SESSIONS))] + self.origin(self.functions))

    def cer(self):
        """A capabilities exchange (RFC 6733, 5.3.1)."""
        pool = [4, GX, RX, RELAY, 1]
        parts = [Part(258, self.one(pool)) for _ in range(self.one([0, 0, 1, 2]))]
        for _ in range(self.one([0, 1, 2])):
            inner = [Part(258, self.one(pool)) for _ in range(self.one([0, 1, 1, 2]))]
            parts.append(Part(260, [Part(266, TGPP)] + inner))
        return Drawn(CER, BASE, self.origin() + parts, 0x80)

    def dwr(self):
        """A watchdog (RFC 6733, 5.5.1)."""
        return Drawn(DWR, BASE, self.origin(), 0x80)

    def dpr(self):
        """A request for the end of a connection (RFC 6733, 5.4.1)."""
        return Drawn(DPR, BASE, self.origin() + [Part(273, self.one([0, 1, 2]))], 0x80)

    def peers_answer(self):
        """An answer of a peer, mostly to a re-authorisation or an abort; some are broken."""
        if self.chance(65):
            sessions, command, application = self.one([(GX_SESSIONS, RAR, GX), (AF_SESSIONS, ASR, RX)])
            parts = [Part(263, self.one(sessions))] + self.some(80, Part(268, 2001)) + self.origin()
            return Drawn(command, application, parts, 0x40)
        if self.chance(40):
            return Drawn(DPR, BASE, self.origin(), 0)
        drawn = self.broken(self.request())
        drawn.flags &= 0x7F
        return drawn

    def request(self):
        """A request of any command."""
        makers = (self.ccr, self.aar, self.str_, self.cer, self.dwr, self.dpr)
        return self.random.choices(makers, (34, 36, 8, 6, 4, 4))[0]()

    # ---- what makes no difference

    def varied(self, drawn):
        """A message that means the same: other orders, flags, padding and identifiers, AVPs that nothing reads."""
        drawn.identifiers = (self.random.randrange(2**32), self.random.randrange(2**32))
        drawn.flags ^= self.one([0, 0, 0x40, 0x10, 0x0F])
        for parts in owners(drawn.parts):
            if self.chance(30):
                self.random.shuffle(parts)
            if self.chance(20):
                parts.insert(self.random.randrange(len(parts) + 1), self.unread())
            for part in parts:
                part.flags, part.filler = self.one([0x40, 0x40, 0, 0x20, 0x7F]), self.one([0, 0, 0xFF])
                part.vendor = 0 if part.vendor is None and self.chance(10) else part.vendor
            if parts and parts is not drawn.parts and self.chance(30):
                parts[-1].bare = True
        return drawn

    def unread(self):
        """An AVP that no table names: of another code, or of a known one with another vendor."""
        code, vendor = self.one([1, 97, 263, 415, 416, 507, 511, 518]), self.one([1, 9, TGPP + 1])
        return Part(code, self.one([b"", b"x", 7, b"\0" * 5]), vendor)

    # ---- what is refused

    def broken(self, drawn):
        """A message with something wrong, often in more than one way."""
        ways = {self.break_version: 4, self.break_bits: 4, self.break_length: 6, self.break_application: 5,
                self.break_command: 5, self.drop: 4, self.repeat: 6, self.break_number: 4, self.break_value: 5}
        if drawn.command == AAR:
            ways |= {self.break_group: 8, self.break_filter: 8, self.break_numbering: 10}
        elif drawn.command in (CCR, CER):
            ways |= {self.break_group: 6}
        for _ in range(self.one([1, 1, 1, 2, 2, 3])):
            self.random.choices(list(ways), list(ways.values()))[0](drawn)
        return drawn

    def place(self, drawn, wanted=lambda part: True):
        """A list of AVPs and a place in it, of those that are wanted; None if there is none."""
        places = [(parts, at) for parts in owners(drawn.parts) for at, part in enumerate(parts) if wanted(part)]
        return self.one(places) if places else None

    def break_version(self, drawn):
        """A version that isn't 1."""
        drawn.version = self.one([0, 2, 9, 255])

    def break_bits(self, drawn):
        """A request that says that it is an error."""
        drawn.flags |= 0x20

    def break_length(self, drawn):
        """An AVP of the message, or of a group, that says another length."""
        parts = drawn.parts if self.chance(60) else self.one(owners(drawn.parts))
        if parts:
            part = self.one(parts)
            length = len(part.octets())
            part.off = self.one([4, 8, 4096, -4, -length, 7 - length, 8 - length, 11 - length])

    def break_application(self, drawn):
        """Another application."""
        drawn.application = self.one([1, 3, 4, GX - 1, GX + 1, RELAY, BASE, GX, RX])

    def break_command(self, drawn):
        """Another command."""
        drawn.command = self.one([0, RAR, 271, ASR, 2**24 - 1, CER, AAR, CCR, STR, DWR, DPR])

    def drop(self, drawn):
        """An AVP less."""
        place = self.place(drawn)
        if place:
            del place[0][place[1]]

    def repeat(self, drawn):
        """An AVP twice, or more often."""
        place = self.place(drawn)
        if place:
            parts, at = place
            times = 17 if parts[at].code == 443 and self.chance(30) else self.one([1, 1, 2])
            for _ in range(times):
                parts.insert(self.one([at, len(parts)]), copy.deepcopy(parts[at]))

    def break_number(self, drawn):
        """A number that hasn't four bytes."""
        place = self.place(drawn, lambda part: isinstance(part.value, int))
        if place:
            place[0][place[1]].value = b"\0" * self.one([0, 1, 3, 5, 8])

    def break_value(self, drawn):
        """Another number, or a text of another length."""
        place = self.place(drawn, lambda part: not isinstance(part.value, list))
        if place:
            part = place[0][place[1]]
            other = [0, 1, 2, 3, 4, 5, 6, MOST_NUMBER]
            lengths = [0, 0, 3, 5, 16] + ([255, 256, 513] if self.chance(15) else [])
            part.value = self.one(other) if isinstance(part.value, int) else b"x" * self.one(lengths)

    def break_group(self, drawn):
        """A group that is cut off, or that goes on with a few bytes."""
        place = self.place(drawn, lambda part: isinstance(part.value, list))
        if place:
            part = place[0][place[1]]
            octets = value_octets(part.value)
            cut = octets[:-self.one([1, 2, 3, 4, 5, 9])] if octets else b""
            part.value = self.one([cut, octets + b"\0" * self.one([1, 3, 4, 7, 8])])

    def break_numbering(self, drawn):
        """A component or a flow of a number that another one has."""
        groups = [parts for parts in owners(drawn.parts) if any(part.code in (517, 519) for part in parts)]
        if groups:
            parts = self.one(groups)
            parts.append(copy.deepcopy(self.one([part for part in parts if part.code in (517, 519)])))

    def full_request(self):
        """A request with most AVPs of its table."""
        if self.chance(55):
            parts = [tgpp(509, 1), tgpp(507, FILTERS[2]), tgpp(511, 2), tgpp(512, 0), tgpp(516, 1), tgpp(515, 2)]
            flow = tgpp(519, parts)
            parts = [tgpp(518, 1), tgpp(520, 0), tgpp(511, 2), tgpp(516, 1), tgpp(515, 2), flow]
            return Drawn(AAR, RX, [Part(263, b"af")] + self.origin(self.functions) + self.user(90, 70, 60, 60, CALLERS) + [tgpp(517, parts)])
        if self.chance(60):
            kind = self.one([1, 2, 3])
            parts = [Part(263, b"gw")] + self.origin() + [Part(416, kind), Part(415, 0)]
            return Drawn(CCR, GX, parts + self.user(90, 75, 90, 90))
        return self.one((self.str_, self.cer, self.dwr, self.dpr))()

    def strained(self):
        """A request with one AVP or two of one group at or past what a row allows."""
        drawn = self.full_request()
        parts = self.one([parts for parts in owners(drawn.parts) if parts])
        first = self.random.randrange(len(parts))
        for part in parts[first:first + self.one([1, 2, 2, 3])]:
            self.strain(parts, part)
        if self.chance(30):
            parts.insert(0, Part(263, b"other", self.one([None, 0, 9])))
        return drawn

    def strain(self, parts, part):
        """An AVP that is absent, too often there, of another size or past its range."""
        way = 1 if part.code == 443 and self.chance(25) else self.random.randrange(8)
        if way == 7 and part.vendor == TGPP:
            part.off = self.one([8, 11]) - 12 - len(value_octets(part.value))
        elif way == 0:
            parts.remove(part)
        elif way == 1:
            parts.extend(copy.deepcopy(part) for _ in range(self.crowd(parts, part)))
        elif way == 2 and not isinstance(part.value, list):
            part.value = b"\0" * self.one(SIZES)
        elif way == 3 and isinstance(part.value, list):
            part.value = value_octets(part.value) + b"\0" * self.one([1, 4, 7])
        elif part.code in STRAINS:
            part.value = self.one(STRAINS[part.code])

    def crowd(self, parts, part):
        """How many more of an AVP: up to its most, or one past it."""
        most = {443: 16, 507: 2}.get(part.code, 1)
        return most - sum(one.code == part.code for one in parts) + self.one([0, 1, 1])

    def crossed(self):
        """A request of any application and command, often with more that is refused before its table is looked at."""
        parts = [Part(263, self.one([b"a", b"a", b"", b"", b"x" * 513]))]
        parts += self.some(30, Part(263, b"b")) + self.origin()
        parts[self.random.randrange(len(parts))].off = self.one([0, 0, 0, 4096])
        drawn = Drawn(self.one([CCR, AAR, STR, DPR, RAR, 271]), self.one([BASE, GX, RX, GX, RX, 1]), parts)
        drawn.version, drawn.flags = self.one([1, 1, 2]), self.one([0xC0, 0x80, 0xE0, 0x60])
        return drawn

    def refused(self):
        """The bytes of a message that is mostly refused before what is held is looked at."""
        ways = (self.strained, lambda: self.broken(self.request()), self.crossed)
        return self.random.choices(ways, (73, 13, 14))[0]().octets()

    def break_filter(self, drawn):
        """A filter that the profile doesn't take."""
        place = self.place(drawn, lambda part: part.code == 507 and part.vendor == TGPP)
        if place:
            place[0][place[1]].value = self.one(BAD_FILTERS)

    # ---- messages

    def message(self):
        """The bytes of a message of any kind."""
        if self.chance(6):
            return self.peers_answer().octets()
        drawn = self.request()
        if self.chance(30):
            drawn = self.varied(drawn)
        if self.chance(33):
            drawn = self.broken(drawn)
        return drawn.octets()

    def bad_end(self):
        """Bytes that are no whole message."""
        whole = self.message()
        lengths = [0, 4, 16, 19, 21, 22, 65531, 65533, 65536, 65540, 2**24 - 1, 2**24 - 4]
        wrong = whole[:1] + self.one(lengths).to_bytes(3, "big") + whole[4:20]
        return self.one([whole[:self.random.randrange(1, len(whole))], whole[:self.one([1, 2, 3, 4])], wrong, wrong,
                         wrong[:self.one([4, 7])]])
