"""A plain reader and writer of letters, written from docs/LETTERS.md and sharing nothing with the product, and the cases
that `pcrf_checks` runs on it: `letters.py` prints the lines, each with what is said of it behind it.
"""

EDITION = 7
VERSIONS = (1, 2, 3)  # the last is written
PREFIXES, ABORTS = 2, 3  # the versions from which on letters have these
LAST = 2 ** 63 - 1
MOST = 2 ** 30

# what a field says, by its number
SESSION = {1: "address", 2: "apn", 3: "subscribers", 4: "identity", 5: "identity", 6: "last", 7: "prefix"}
COMPONENT = {1: (0, 2 ** 32 - 1), 2: (0, 3), 3: (0, 2 ** 32 - 1), 4: (0, 2 ** 32 - 1)}
FLOW = {1: "filters", 2: (0, 2), 3: (0, 3), 4: (0, 2 ** 32 - 1), 5: (0, 2 ** 32 - 1)}


class Bad(Exception):
    """The bytes are no letter."""


class Reader:
    """A reader of a letter, whose version it knows once it read that."""

    def __init__(self, data):
        self.data, self.at, self.version = data, 0, VERSIONS[-1]

    def take(self, count):
        if self.at + count > len(self.data):
            raise Bad()
        self.at += count
        return self.data[self.at - count:self.at]

    def number(self, size, least=0, most=None):
        found = int.from_bytes(self.take(size), "big")
        if found < least or (most is not None and found > most):
            raise Bad()
        return found

    def count(self, what, size, least=0, most=None):
        """A number that says how many of these follow; what they are is for whoever notes where counts stand."""
        return self.number(size, least, most)

    def text(self, most):
        found = self.take(self.count("bytes of a text", 2))
        if not 1 <= len(found) <= most:
            raise Bad()
        return found

    def filters(self):
        count = self.count("filters", 1, 1, 2)
        return [self.text(255) for _ in range(count)]

    def rule(self):
        self.number(1, 0, 3)
        self.filters()
        self.number(1, 1, 9)
        self.number(1, 1, 15)
        self.number(1, 0, 1)
        self.number(1, 0, 1)
        for _ in range(3):
            self.number(4)

    def prefix(self):
        """The length in bits, and the bytes that these need, with zeros past them."""
        bits = self.count("bits of a prefix", 1, 0, 128)
        octets = self.take(-(-bits // 8))
        if int.from_bytes(octets, "big") % 2 ** (8 * len(octets) - bits):
            raise Bad()

    def session_value(self, kind, field):
        if field == "address":
            self.count("bytes of an address", 1, 4, 4)
            self.take(4)
        elif field == "prefix":
            self.prefix()
        elif field == "apn":
            name = self.text(255)
            if any(0x41 <= byte <= 0x5A for byte in name):
                raise Bad()
        elif field == "subscribers":
            count = self.count("subscribers", 2, 1, 16)
            found = [(self.number(1, 0, 4), self.text(255)) for _ in range(count)]
            if any(a >= b for a, b in zip(found, found[1:])):
                raise Bad()
        elif field == "identity":
            self.text(255)
        else:
            self.number(4, *((1, 2) if kind == 1 else (0, 0)))

    def ranged(self, row):
        if row == "filters":
            self.filters()
        else:
            self.number(4, *row)

    def row(self, rows):
        number = self.number(1)
        if number not in rows:
            raise Bad()
        return number

    def fact(self, kind):
        """Its position: kind of fact, component, flow, field, name."""
        code = self.number(1)
        if code == 1:
            return (1, 0, 0, 0, b"")
        if code == 2:
            field = self.row(SESSION)
            if SESSION[field] == "prefix" and self.version < PREFIXES:
                raise Bad()
            self.session_value(kind, SESSION[field])
            return (2, 0, 0, field, b"")
        if kind == 1:
            if code != 7:
                raise Bad()
            name = self.text(600)
            if self.number(1, 0, 1):
                self.rule()
            return (7, 0, 0, 0, name)
        if code == 8 and self.version >= ABORTS:
            return (8, 0, 0, 0, b"")
        if code not in (3, 4, 5, 6):
            raise Bad()
        component = self.number(4)
        if code == 3:
            return (3, component, 0, 0, b"")
        if code == 5:
            field = self.row(COMPONENT)
            self.ranged(COMPONENT[field])
            return (5, component, 0, field, b"")
        flow = self.number(4)
        if code == 4:
            return (4, component, flow, 0, b"")
        field = self.row(FLOW)
        self.ranged(FLOW[field])
        return (6, component, flow, field, b"")

    def operation(self):
        self.number(8, 1, LAST)
        self.number(1, 0, 15)
        number = self.number(4)
        kind = self.number(1, 1, 2)
        if kind == 2 and number != 0:
            raise Bad()
        self.text(512)
        self.stand_together([self.fact(kind) for _ in range(self.count("facts", 4, 1))])

    def tag(self, kind, position, clock):
        """The tag behind a fact that has one."""
        if position[0] in (2, 5, 6, 7):
            self.number(4, 0, None if kind == 1 and position[0] == 2 else 0)
            self.number(8, 1, clock)
            self.number(1, 0, 15)

    def group(self, clock):
        """What a state holds of a session, which it returns."""
        kind = self.number(1, 1, 2)
        session = self.text(512)
        facts = []
        for _ in range(self.count("held facts", 4, 1)):
            facts.append(self.fact(kind))
            self.tag(kind, facts[-1], clock)
        self.stand_together(facts)
        return kind, session

    def stand_together(self, facts):
        """The facts ascend, and none removes another."""
        if any(a >= b for a, b in zip(facts, facts[1:])):
            raise Bad()
        if facts[0][0] == 1 and len(facts) > 1:
            raise Bad()
        components = {fact[1] for fact in facts if fact[0] == 3}
        flows = {fact[1:3] for fact in facts if fact[0] == 4}
        for fact in facts:
            if fact[0] in (4, 5, 6) and fact[1] in components:
                raise Bad()
            if fact[0] == 6 and fact[1:3] in flows:
                raise Bad()

    def body(self):
        kind = self.number(1)
        if kind == 1:
            first = self.number(8)
            count = self.count("operations", 4)
            if first + count > LAST or count > 100:
                raise Bad()
            for _ in range(count):
                self.operation()
        elif kind == 2:
            clock = self.number(8, 0, LAST)
            self.number(8, 0, LAST)
            groups = [self.group(clock) for _ in range(self.count("groups", 4))]
            if any(a >= b for a, b in zip(groups, groups[1:])):
                raise Bad()
        elif kind == 3:
            self.number(1, 0, 15)
            self.number(2)
            self.number(8, 0, LAST)
        else:
            raise Bad()


OLDER = "read, and written in version 3"


def verdict(frame):
    """What a site of edition 7 says of a frame, and whether it writes it again with another version alone."""
    return judged(Reader(frame))


def judged(reader):
    """The same by a reader of the frame that has read nothing of it."""
    frame = reader.data
    try:
        length = reader.count("bytes of a letter", 4)
        reader.version = reader.number(1)
        if reader.version not in VERSIONS:
            return "the letter's version is not 1, 2 or 3"
        if reader.number(4) != EDITION:
            return "the letter is of another edition of the operator tables"
        if length != len(frame) - 4 or length > MOST:
            raise Bad()
        reader.number(1, 0, 15)
        reader.number(2, 1)
        reader.body()
        if reader.at != len(frame):
            raise Bad()
    except Bad:
        return "the bytes are no letter"
    return "read" if reader.version == VERSIONS[-1] else OLDER


# ---- the same, written

def u(size, number):
    return number.to_bytes(size, "big")


def text(data):
    return u(2, len(data)) + data


def framed(content):
    return u(4, len(content)) + content


def letter(body, version=VERSIONS[-1], edition=EDITION, site=0, epoch=1):
    return framed(u(1, version) + u(4, edition) + u(1, site) + u(2, epoch) + body)


def log_range(operations, first=0, count=None):
    count = len(operations) if count is None else count
    return u(1, 1) + u(8, first) + u(4, count) + b"".join(operations)


def snapshot(groups, clock=9, log=0, count=None):
    count = len(groups) if count is None else count
    return u(1, 2) + u(8, clock) + u(8, log) + u(4, count) + b"".join(groups)


def tag(counter=1, site=0, number=0):
    return u(4, number) + u(8, counter) + u(1, site)


def group(facts, kind=2, session=b"af;1", count=None):
    """Of facts and the tags behind them, an empty one where a fact has none."""
    count = len(facts) if count is None else count
    return u(1, kind) + text(session) + u(4, count) + b"".join(fact + own for fact, own in facts)


def gateway(facts, session=b"gw;1;1", **more):
    return group(facts, kind=1, session=session, **more)


def acknowledgement(maker=0, epoch=1, cursor=1):
    return u(1, 3) + u(1, maker) + u(2, epoch) + u(8, cursor)


def operation(facts, counter=1, site=0, number=0, kind=2, session=b"af;1", count=None):
    count = len(facts) if count is None else count
    return u(8, counter) + u(1, site) + u(4, number) + u(1, kind) + text(session) + u(4, count) + b"".join(facts)


END = u(1, 1)


def field(number, value):
    return u(1, 2) + u(1, number) + value


def address(octets=b"\x0a\x00\x00\x01", size=4):
    return field(1, u(1, size) + octets)


def apn(name=b"ims"):
    return field(2, text(name))


def subscribers(found, count=None):
    count = len(found) if count is None else count
    return field(3, u(2, count) + b"".join(u(1, kind) + text(name) for kind, name in found))


def host(name=b"af"):
    return field(4, text(name))


def realm(name=b"r"):
    return field(5, text(name))


def last(number):
    return field(6, u(4, number))


def prefix(bits, octets):
    return field(7, u(1, bits) + octets)


ABORTED = u(1, 8)


def component_removed(component):
    return u(1, 3) + u(4, component)


def flow_removed(component, flow):
    return u(1, 4) + u(4, component) + u(4, flow)


def component(number, row, value):
    return u(1, 5) + u(4, number) + u(1, row) + u(4, value)


def flow(number, index, row, value):
    return u(1, 6) + u(4, number) + u(4, index) + u(1, row) + (value if isinstance(value, bytes) else u(4, value))


def filters(found, count=None):
    count = len(found) if count is None else count
    return u(1, count) + b"".join(text(one) for one in found)


def rule(status=2, found=None, qci=5, priority=9, capability=1, vulnerability=0):
    found = filters([b"permit out ip from any to any"]) if found is None else found
    return (u(1, status) + found + u(1, qci) + u(1, priority) + u(1, capability) + u(1, vulnerability)
            + u(4, 32000) + u(4, 32000) + u(4, 40))


def told(name, what=None):
    return u(1, 7) + text(name) + (u(1, 0) if what is None else u(1, 1) + what)


IMSI, E164 = (1, b"001010000000001"), (0, b"15550001")


def gx(facts, number=0, session=b"gw;1;1", **more):
    return operation(facts, kind=1, number=number, session=session, **more)


def one(op, **more):
    return letter(log_range([op]), **more)


def attach(number=3):
    return gx([address(), apn(), subscribers([E164, IMSI]), host(b"gw"), realm(), last(1), told(b"op/old"),
               told(b"op/sip", rule())], number=number)


def call():
    two = filters([b"permit in ip from any to any", b"permit out ip from any to any"])
    return operation([address(), host(), realm(), last(0), component_removed(9), flow_removed(1, 7), component(1, 1, 0),
                      component(1, 2, 3), component(1, 3, 41000), component(1, 4, 80000), flow(1, 1, 1, two),
                      flow(1, 2, 2, 1), flow(1, 2, 3, 2), flow(1, 2, 4, 5000), flow(1, 2, 5, 5000)])


def attached(own=None):
    own = tag(number=3) if own is None else own
    return gateway([(address(), own), (apn(), own), (subscribers([E164, IMSI]), own), (host(b"gw"), own), (realm(), own),
                    (last(1), own), (told(b"op/old"), tag(2)), (told(b"op/sip", rule()), tag())])


def called():
    two = filters([b"permit in ip from any to any", b"permit out ip from any to any"])
    return group([(address(), tag(4)), (host(), tag(9, 15)), (realm(), tag(9)), (last(0), tag()), (component_removed(9), b""),
                  (flow_removed(1, 7), b""), (component(1, 1, 0), tag()), (component(1, 4, 80000), tag(3)),
                  (flow(1, 1, 1, two), tag()), (flow(1, 2, 5, 5000), tag(8, 7))])


def state(groups, site=0, **more):
    return letter(snapshot(groups, **more), site=site)


def whole_states():
    """Whole states that are read: each form of fact with its tag, and each bound at its end."""
    yield "a state of nothing", state([], clock=0)
    yield "the last clock and length", state([], clock=LAST, log=LAST)
    yield "a state of an ended session", state([gateway([(END, b"")])], clock=0)
    yield "a state of a gateway's session", state([attached()], log=2)
    yield "a state of a call", state([called()])
    yield "a state of both", state([attached(), called()], log=1)
    yield "sessions in order", state([gateway([(END, b"")], session=b"a"), gateway([(END, b"")], session=b"ab"),
                                     gateway([(END, b"")], session=b"b"), group([(END, b"")], session=b"a")])
    yield "a tag at the clock", state([group([(host(), tag(9))])])
    yield "the greatest tag", state([gateway([(host(), tag(LAST, 15, 2 ** 32 - 1))])], clock=LAST)
    yield "removals alone", state([group([(component_removed(1), b""), (flow_removed(2, 1), b"")])], clock=0)


def broken_states():
    """Whole states that are not read."""
    yield "a clock of 2^63", state([], clock=2 ** 63)
    yield "a log of 2^63", state([], log=2 ** 63)
    yield "a count of groups above them", state([attached()], count=2)
    yield "the greatest count of groups", state([attached()], count=2 ** 32 - 1)
    yield "a count of groups below them", state([attached(), called()], count=1)
    yield "groups out of order", state([called(), attached()])
    yield "a group twice", state([attached(), attached()])
    yield "a session before its beginning", state([group([(END, b"")], session=b"ab"), group([(END, b"")], session=b"a")])
    yield "a tag above the clock", state([group([(host(), tag(10))])])
    yield "a told tag above the clock", state([gateway([(told(b"a"), tag(10))])])
    yield "a component's tag above the clock", state([group([(component(1, 1, 0), tag(10))])])
    yield "a flow's tag above the clock", state([group([(flow(1, 1, 2, 0), tag(10))])])
    yield "a tag of counter 0", state([group([(host(), tag(0))])])
    yield "a tag of counter 2^63", state([group([(host(), tag(2 ** 63))])], clock=LAST)
    yield "a tag of site 16", state([group([(host(), tag(1, 16))])])
    yield "a numbered tag of a call", state([group([(host(), tag(number=1))])])
    yield "a numbered tag of what was told", state([gateway([(told(b"a"), tag(number=1))])])
    yield "a value without its tag", state([group([(host(), b"")])])
    yield "an end with a tag", state([group([(END, tag())])])
    yield "a removal with a tag", state([group([(component_removed(1), tag())])])
    yield "a group of session kind 0", state([group([(END, b"")], kind=0)])
    yield "a group of session kind 3", state([group([(END, b"")], kind=3)])
    yield "a group of an empty session", state([group([(END, b"")], session=b"")])
    yield "a group of a session of 513 bytes", state([group([(END, b"")], session=b"s" * 513)])
    yield "a group of no fact", state([group([])])
    yield "a count of held facts above them", state([group([(END, b"")], count=2)])
    yield "the greatest count of held facts", state([group([(END, b"")], count=2 ** 32 - 1)])
    yield "a count of held facts below them", state([group([(host(), tag()), (realm(), tag())], count=1)])
    yield "held facts out of order", state([group([(realm(), tag()), (host(), tag())])])
    yield "a held fact twice", state([group([(host(), tag()), (host(), tag())])])
    yield "two values of a field", state([group([(host(b"a"), tag()), (host(b"b"), tag(2))])])
    yield "a held end beside another fact", state([group([(END, b""), (host(), tag())])])
    yield "a held component beneath its removal", state([group([(component_removed(1), b""), (component(1, 1, 0), tag())])])
    yield "a held flow beneath its component's removal", state([group([(component_removed(1), b""), (flow(1, 2, 2, 0), tag())])])
    yield "a held removal beneath another", state([group([(component_removed(1), b""), (flow_removed(1, 2), b"")])])
    yield "a held flow beneath its removal", state([group([(flow_removed(1, 2), b""), (flow(1, 2, 2, 0), tag())])])
    yield "what was told held of a call", state([group([(told(b"a"), tag())])])
    yield "a removal held of a gateway's session", state([gateway([(component_removed(1), b"")])])
    yield "a type of call held of a gateway's session", state([gateway([(last(0), tag())])])
    yield "a byte behind a state", letter(snapshot([]) + b"\0")


def whole():
    """Letters that are read: each form of fact, and each bound at its end."""
    yield "a range of the end of a session", letter(log_range([gx([END], number=5, counter=2)], first=1))
    yield "an acknowledgement", letter(acknowledgement(), site=1)
    yield "a range of no operation", letter(log_range([], first=LAST))
    yield "a gateway's session", one(attach())
    yield "a call", one(call())
    yield "several operations", letter(log_range([attach(), call(), operation([END], counter=LAST, site=15)], first=4))
    yield "100 operations", letter(log_range([operation([END], counter=1 + i) for i in range(100)], first=LAST - 100))
    yield "the last site and epoch", letter(acknowledgement(15, 65535, LAST), site=15, epoch=65535)
    yield "the greatest request number", one(gx([END], number=2 ** 32 - 1))
    yield "a session of 512 bytes", one(operation([END], session=b"s" * 512))
    yield "texts of 255 bytes", one(operation([apn(b"n" * 255), subscribers([(4, b"d" * 255)]), host(b"h" * 255)]))
    yield "any bytes in texts", one(operation([apn(bytes(range(0x5B, 0xDB))), host(bytes(range(256))[1:])]))
    yield "sixteen subscribers", one(operation([subscribers([(0, u(1, 65 + i)) for i in range(16)])]))
    yield "a rule's name of 600 bytes", one(gx([told(b"n" * 600)]))
    yield "an update", one(gx([last(2)], number=1))
    yield from prefixes_and_aborts()
    yield "the greatest of each of a rule", one(gx([told(b"a", rule(3, filters([b"f" * 255] * 2), 9, 15, 1, 1))]))
    yield "the least of each of a rule", one(gx([told(b"a", rule(0, None, 1, 1, 0, 0))]))
    yield from whole_states()


USER = b"\x20\x01\x0d\xb8\0\0\0\1"


def reached():
    """What a gateway's session and a call give that have a prefix, and that the call was aborted."""
    held = tag(4, 2, 3)
    return (gx([host(b"gw"), realm(), last(1), prefix(64, USER)], number=3),
            operation([last(0), prefix(128, USER + bytes(7) + b"\5"), component_removed(9), flow(1, 1, 2, 0), ABORTED]),
            gateway([(address(), held), (prefix(64, USER), tag(3))]),
            group([(prefix(61, USER[:7] + b"\x08"), tag(2)), (component(1, 1, 0), tag(5)), (ABORTED, b"")]))


def prefixes_and_aborts():
    """Letters that are read, of prefixes of each kind of length, and of aborts."""
    own, called_by, held, held_call = reached()
    yield "a gateway's session that has a prefix", one(own)
    yield "a call that has a prefix and was aborted", one(called_by)
    yield "a state of both", state([held, held_call])
    yield "an abort", one(operation([ABORTED], session=b"af;1"))
    yield "a state of an aborted call", state([group([(ABORTED, b"")])], clock=0)
    for bits in (0, 1, 7, 8, 9, 32, 56, 61, 63, 120, 121, 127, 128):
        octets = (2 ** bits - 1 << -bits % 8).to_bytes(-(-bits // 8), "big")
        yield f"a prefix of {bits} bits", one(gx([prefix(bits, octets)]))


def older():
    """Letters of the versions before, which are read as the letters that they are, and written in the last."""
    own, called_by, held, held_call = reached()
    for version in VERSIONS[:-1]:
        for name, body in (("a range", log_range([attach(), call(), gx([END], number=5, counter=2)], first=1)),
                           ("a whole state", snapshot([attached(), called()])), ("an acknowledgement", acknowledgement())):
            yield f"{name} of version {version}", letter(body, version=version)
    yield "a prefix in version 2", one(own, version=2)
    yield "a held prefix in version 2", letter(snapshot([held]), version=2)


def broken_versions():
    """Letters of versions that don't have what they say, or that aren't."""
    own, called_by, held, held_call = reached()
    for version in (0, 4, 9, 255):
        yield f"version {version}", letter(acknowledgement(), version=version)
    yield "version 0 of another edition", letter(acknowledgement(), version=0, edition=8)
    yield "version 2 of another edition", letter(acknowledgement(), version=2, edition=8)
    yield "a prefix in version 1", one(own, version=1)
    yield "a held prefix in version 1", letter(snapshot([held]), version=1)
    for version in VERSIONS[:-1]:
        yield f"an abort in version {version}", one(operation([ABORTED]), version=version)
        yield f"a held abort in version {version}", letter(snapshot([group([(ABORTED, b"")])], clock=0), version=version)


def broken_prefixes_and_aborts():
    """Letters that are not read for a prefix or an abort."""
    for bits in (129, 136, 255):
        yield f"a prefix of {bits} bits", one(gx([prefix(bits, bytes(-(-bits // 8)))]))
    yield "a prefix of a byte too few", one(gx([prefix(65, USER)]))
    yield "a prefix of a byte too many", one(gx([prefix(64, USER + b"\0")]))
    for bits in (1, 7, 9, 61, 63, 127):
        octets = (2 ** bits - 1 << -bits % 8 | 1).to_bytes(-(-bits // 8), "big")
        yield f"a prefix of {bits} bits with one behind them", one(gx([prefix(bits, octets)]))
    yield "a prefix without a length", one(gx([field(7, b"")]))
    yield "a prefix before another field", one(gx([prefix(64, USER), last(1)]))
    yield "a prefix twice", one(gx([prefix(56, USER[:7]), prefix(64, USER)]))
    yield "a held prefix without its tag", state([gateway([(prefix(64, USER), b"")])])
    yield "an abort of a gateway's session", one(gx([ABORTED]))
    yield "an abort held of a gateway's session", state([gateway([(ABORTED, b"")])])
    yield "an abort twice", one(operation([ABORTED, ABORTED]))
    yield "an abort before a flow", one(operation([ABORTED, flow(1, 1, 2, 0)]))
    yield "an end beside an abort", one(operation([END, ABORTED]))
    yield "an abort with a tag", state([group([(ABORTED, tag())])])


def broken():
    """Letters that are not: each bound one past its end, each count larger than its body, each order broken."""
    yield from broken_versions()
    yield "edition 8", letter(acknowledgement(), edition=8)
    yield "edition 8 of no form", framed(u(1, 3) + u(4, 8))
    yield "no byte", b""
    yield "a cut length", b"\0\0\0"
    yield "a length alone", framed(b"")
    yield "a version alone", framed(b"\3")
    yield "an older version alone", framed(b"\1")
    yield "another version alone", framed(b"\4")
    yield "an edition cut off", framed(b"\3\0\0\0")
    yield "a byte behind", letter(acknowledgement() + b"\0")
    yield "a length one more", u(4, 21) + letter(acknowledgement())[4:]
    yield "a length one less", u(4, 19) + letter(acknowledgement())[4:]
    yield "site 16", letter(acknowledgement(), site=16)
    yield "epoch 0", letter(acknowledgement(), epoch=0)
    yield "kind 0", letter(u(1, 0))
    yield "kind 4", letter(u(1, 4) + acknowledgement()[1:])
    yield "maker 16", letter(acknowledgement(maker=16))
    yield "cursor 2^63", letter(acknowledgement(cursor=2 ** 63))
    yield "a range past the last position", letter(log_range([call()], first=LAST))
    yield "a range from 2^63", letter(log_range([], first=2 ** 63))
    yield "101 operations", letter(log_range([operation([END], counter=1 + i) for i in range(101)]))
    yield "a count of operations above them", letter(log_range([call()], count=2))
    yield "the greatest count of operations", letter(log_range([call()], count=2 ** 32 - 1))
    yield "a count of operations below them", letter(log_range([call(), call()], count=1))
    yield "counter 0", one(operation([END], counter=0))
    yield "counter 2^63", one(operation([END], counter=2 ** 63))
    yield "an operation of site 16", one(operation([END], site=16))
    yield "a number on a call", one(operation([END], number=1))
    yield "session kind 0", one(operation([END], kind=0))
    yield "session kind 3", one(operation([END], kind=3))
    yield "an empty session", one(operation([END], session=b""))
    yield "a session of 513 bytes", one(operation([END], session=b"s" * 513))
    yield "no fact", one(operation([]))
    yield "a count of facts above them", one(operation([END], count=2))
    yield "the greatest count of facts", one(operation([END], count=2 ** 32 - 1))
    yield "a count of facts below them", one(operation([host(), realm()], count=1))
    yield "facts out of order", one(operation([realm(), host()]))
    yield "a fact twice", one(operation([host(), host()]))
    yield "another value of a field", one(operation([host(b"a"), host(b"b")]))
    yield "an end beside another fact", one(operation([END, host()]))
    yield "an end twice", one(operation([END, END]))
    yield "an end behind another fact", one(operation([host(), END]))
    yield "a component beneath its removal", one(operation([component_removed(1), component(1, 1, 0)]))
    yield "a flow beneath its component's removal", one(operation([component_removed(1), flow(1, 2, 2, 0)]))
    yield "a removal beneath another", one(operation([component_removed(1), flow_removed(1, 2)]))
    yield "a flow beneath its removal", one(operation([flow_removed(1, 2), flow(1, 2, 2, 0)]))
    yield "flows out of order", one(operation([flow(1, 2, 2, 0), flow(1, 1, 2, 0)]))
    yield "told names out of order", one(gx([told(b"b"), told(b"a")]))
    yield "a told name behind its beginning", one(gx([told(b"ab"), told(b"a")]))
    yield "fact 0", one(operation([u(1, 0)]))
    yield "fact 9", one(operation([u(1, 9)]))
    yield "what was told of a call", one(operation([told(b"a")]))
    for code in (component_removed(1), flow_removed(1, 1), component(1, 1, 0), flow(1, 1, 2, 0)):
        yield "a fact of a call on a gateway's session", one(gx([code]))
    yield "session field 0", one(operation([field(0, b"")]))
    yield "session field 8", one(operation([field(8, b"")]))
    yield "an address of three octets", one(operation([address(b"\x0a\0\0", 3)]))
    yield "an address of sixteen", one(operation([address(b"\0" * 16, 16)]))
    yield "an empty access point", one(operation([apn(b"")]))
    yield "an access point of 256 bytes", one(operation([apn(b"n" * 256)]))
    yield "a capital in an access point", one(operation([apn(b"imS")]))
    yield "no subscriber", one(operation([subscribers([])]))
    yield "seventeen subscribers", one(operation([subscribers([(0, u(1, 65 + i)) for i in range(17)])]))
    yield "subscribers out of order", one(operation([subscribers([IMSI, E164])]))
    yield "a subscriber twice", one(operation([subscribers([IMSI, IMSI])]))
    yield "a count of subscribers above them", one(operation([subscribers([IMSI], count=2)]))
    yield "a subscriber of type 5", one(operation([subscribers([(5, b"a")])]))
    yield "an empty subscriber", one(operation([subscribers([(1, b"")])]))
    yield "a subscriber of 256 bytes", one(operation([subscribers([(1, b"a" * 256)])]))
    yield "an empty host", one(operation([host(b"")]))
    yield "a realm of 256 bytes", one(operation([realm(b"r" * 256)]))
    yield "a request type of a call", one(operation([last(1)]))
    yield "request type 0", one(gx([last(0)]))
    yield "request type 3", one(gx([last(3)]))
    yield "component field 0", one(operation([component(1, 0, 0)]))
    yield "component field 5", one(operation([component(1, 5, 0)]))
    yield "a component's status 4", one(operation([component(1, 2, 4)]))
    yield "flow field 0", one(operation([flow(1, 1, 0, 0)]))
    yield "flow field 6", one(operation([flow(1, 1, 6, 0)]))
    yield "a flow's usage 3", one(operation([flow(1, 1, 2, 3)]))
    yield "a flow's status 4", one(operation([flow(1, 1, 3, 4)]))
    yield "no filter", one(operation([flow(1, 1, 1, filters([]))]))
    yield "three filters", one(operation([flow(1, 1, 1, filters([b"a"] * 3))]))
    yield "a count of filters above them", one(operation([flow(1, 1, 1, filters([b"a"], count=2))]))
    yield "an empty filter", one(operation([flow(1, 1, 1, filters([b""]))]))
    yield "a filter of 256 bytes", one(operation([flow(1, 1, 1, filters([b"a" * 256]))]))
    yield "an empty rule's name", one(gx([told(b"")]))
    yield "a rule's name of 601 bytes", one(gx([told(b"n" * 601)]))
    yield "neither a rule nothing", one(gx([u(1, 7) + text(b"a") + u(1, 2)]))
    for made in (rule(status=4), rule(qci=0), rule(qci=10), rule(priority=0), rule(priority=16), rule(capability=2),
                 rule(vulnerability=2), rule(found=filters([])), rule(found=filters([b"a"] * 3))):
        yield "a rule out of its ranges", one(gx([told(b"a", made)]))
    yield from broken_prefixes_and_aborts()
    yield from broken_states()


class Draws:
    """Numbers of 31 bits: the upper half of a linear congruential generator of 64 bits, as the program has it."""

    def __init__(self, seed):
        self.state = seed

    def below(self, bound):
        self.state = (self.state * 6364136223846793005 + 1442695040888963407) % 2 ** 64
        return (self.state >> 33) % bound

    def bytes(self, count, bound):
        return bytes(self.below(bound) for _ in range(count))


def strings(draws, count):
    """Bytes of three kinds: any; behind a good length, version and edition; and small ones behind these."""
    for _ in range(count):
        kind, size = draws.below(3), draws.below(48)
        if kind == 0:
            yield draws.bytes(size, 256)
        else:
            yield framed(u(1, 3) + u(4, EDITION) + draws.bytes(size, 256 if kind == 1 else 4))


def changes(draws, count, frame):
    """The frame with one byte changed."""
    for _ in range(count):
        other, at = bytearray(frame), draws.below(len(frame))
        other[at] = draws.below(256)
        yield bytes(other)


VERDICTS = ["read", "the letter's version is not 1, 2 or 3", "the letter is of another edition of the operator tables",
            "the bytes are no letter", OLDER]


def tallied(frames):
    """How many are read, and all verdicts in their order, mixed into one number."""
    read, mixed = 0, 0
    for frame in frames:
        found = VERDICTS.index(verdict(frame))
        read += VERDICTS[found] in ("read", OLDER)
        mixed = (mixed * 31 + found) % 2 ** 32
    return "%d read, verdicts %d" % (read, mixed)


def taken():
    """Operations of each range, of which a state then takes all."""
    yield []
    yield [attach()]
    yield [call(), attach()]
    yield [attach(), call(), operation([END], counter=9)]
    yield [operation([END], counter=9), call()]
    yield [call(), operation([component_removed(1)], counter=2), operation([host(b"x"), component(1, 1, 4)], counter=3)]
    yield [call(), operation([flow_removed(1, 2), flow(1, 1, 5, 7)], counter=2, site=3)]
    yield [gx([last(1), told(b"b")]), gx([last(2), told(b"a"), told(b"b", rule())], counter=2, number=1),
           gx([host(b"late")], counter=3)]
    yield [gx([host(b"a"), last(2)], counter=5, number=4), gx([host(b"b"), last(1)], counter=6, number=3)]
    yield [gx([last(1)], session=b"b"), gx([END], session=b"a", counter=4), operation([host()], session=b"b"),
           operation([host(), realm()], session=b"a", counter=3, site=2)]


def whole_of(operations, writer):
    """The whole state of a site that took these operations, by sets of facts: each the kind and name of a session, a position, a
    tag and bytes."""
    clock, facts = 0, set()
    for made in operations:
        reader = Reader(made)
        counter, site, number = reader.number(8), reader.number(1), reader.number(4)
        kind, session = reader.number(1), reader.text(512)
        clock = max(clock, counter)
        for _ in range(reader.number(4)):
            start = reader.at
            position = reader.fact(kind)
            own = (number if position[0] == 2 else 0, counter, site) if position[0] in (2, 5, 6, 7) else None
            facts.add((kind, session, position, own, made[start:reader.at]))
    kept = [fact for fact in facts if not any(shades(other, fact) for other in facts)]
    groups = {}
    for kind, session, _, own, spelled in sorted(kept, key=lambda fact: fact[:3]):
        groups.setdefault((kind, session), []).append((spelled, b"" if own is None else tag(own[1], own[2], own[0])))
    return state([group(found, kind=kind, session=session) for (kind, session), found in groups.items()], clock=clock, site=writer)


def shades(other, fact):
    """Whether the one overshadows the other, where no two values have equal tags."""
    if other[:2] != fact[:2] or other == fact:
        return False
    above, below = other[2], fact[2]
    if above == below:
        return other[3] is not None and other[3] > fact[3]
    return (above[0] == 1 or (above[0] == 3 and below[0] in (4, 5, 6) and below[1] == above[1])
            or (above[0] == 4 and below[0] == 6 and below[1:3] == above[1:3]))


def posted(frames):
    """The lines by which a world of 16 sites is given letters that come from elsewhere, each with what is said of it."""
    yield "sites 16", ["sites 16"]
    for name, frame in frames:
        if not frame:
            continue  # no word spells no bytes; each letter is cut before its first
        assert verdict(frame) not in ("read", OLDER), name
        yield "# " + name, []
        yield "post " + frame.hex(), [verdict(frame)]


def written_again():
    """The lines by which each site but the last takes a letter, and writes all that it then holds as another: the operations of
    ranges, an acknowledgement, and whole states."""
    given = [(letter(log_range(body), site=15), whole_of(body, site)) for site, body in enumerate(taken())]
    carried = [(acknowledgement(), [], 0), (snapshot([attached(), called()], log=7), [attached(), called()], 9),
               (snapshot([], clock=3), [], 3)]
    for site, (body, groups, clock) in enumerate(carried, len(given)):
        given.append((letter(body, site=15), state(groups, clock=clock, site=site)))
    for site, (frame, whole_state) in enumerate(given):
        yield "post " + frame.hex(), ["letter %d" % (2 * site)]
        yield "merge %d %d" % (site, 2 * site), ["merged"]
        yield "letter %d 15" % site, ["letter %d" % (2 * site + 1)]
        yield "bytes %d" % (2 * site + 1), [whole_state.hex()]


def lines():
    """Each line with what is said of it."""
    for name, frame in whole():
        assert verdict(frame) == "read", name
        yield "# " + name, []
        yield "cut " + frame.hex(), ["read, and cut at %d places" % len(frame)]
    for name, frame in older():
        assert verdict(frame) == OLDER, name
        yield "# " + name, []
        yield "cut " + frame.hex(), ["%s, and cut at %d places" % (OLDER, len(frame))]
    yield from posted(broken())
    yield "# what is held, written as a whole state", []
    yield from written_again()
    yield "# random bytes", []
    for seed in range(64):
        yield "random %d 1000" % seed, [tallied(strings(Draws(seed), 1000))]
    yield "# letters with one byte changed", []
    for seed, (_, frame) in enumerate(whole()):
        yield "changes %d 1500 %s" % (seed, frame.hex()), [tallied(changes(Draws(seed), 1500, frame))]


if __name__ == "__main__":
    for asked, said in lines():
        print(asked, *("> " + one for one in said), sep="\n")
