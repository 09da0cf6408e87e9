#!/usr/bin/env python3
"""Writes the scripts of calls that the gate runs, and what they have to print.

The messages and answers are put together here from the profile's tables (docs/MESSAGES.md), apart from the program:
what a script prints is what a reader of the tables expects, line by line. `messages.py FOLDER` writes `calls.script`,
`voice_call.script` and the output of each into the folder.
"""
import sys

GX, RX, BASE, TGPP = 16777238, 16777236, 0, 10415


def avp(code, value, vendor=None, flags=0x40):
    """An AVP with its padding (RFC 6733, 4.1)."""
    if isinstance(value, int):
        value = value.to_bytes(4, "big")
    if isinstance(value, str):
        value = value.encode()
    head = 8 if vendor is None else 12
    out = code.to_bytes(4, "big")
    out += bytes([flags | (0 if vendor is None else 0x80)]) + (head + len(value)).to_bytes(3, "big")
    if vendor is not None:
        out += vendor.to_bytes(4, "big")
    return out + value + bytes(-len(value) % 4)


def tgpp(code, value, flags=0x40):
    return avp(code, value, TGPP, flags)


def message(flags, command, application, avps, hop=1, end=2):
    """A message (RFC 6733, 3)."""
    body = b"".join(avps)
    return (b"\x01" + (20 + len(body)).to_bytes(3, "big") + bytes([flags]) + command.to_bytes(3, "big")
            + application.to_bytes(4, "big") + hop.to_bytes(4, "big") + end.to_bytes(4, "big") + body)


# ---- requests

def ip(text):
    return bytes(int(part) for part in text.split("."))


def framed_prefix(bits, digits, first=0):
    """A Framed-IPv6-Prefix (RFC 3162, 2.3): a byte that doesn't count, the length in bits, and bytes."""
    return avp(97, bytes([first, bits]) + bytes.fromhex(digits))


def subscriber(kind, data):
    return avp(443, avp(450, kind) + avp(444, data))


X, Y = subscriber(1, "001010000000001"), subscriber(0, "15550001")


def ccr(kind, number, session="gw;1;1", address=None, apn=None, subscribers=(), prefix=()):
    """A credit control request of the host gw (TS 29.212, 5.6.2)."""
    avps = [avp(263, session), avp(264, "gw"), avp(296, "r"), avp(258, GX), avp(416, kind), avp(415, number)]
    avps += list(subscribers)
    avps += [avp(8, ip(address))] if address else []
    avps += [framed_prefix(*prefix)] if prefix else []
    avps += [avp(30, apn)] if apn else []
    return message(0xC0, 272, GX, avps)


def attach(session="gw;1;1", address="10.0.0.1"):
    """The initial request of a session."""
    return ccr(1, 0, session, address, "IMS", (X, Y))


def flow(number, filters=(), usage=None, status=None, up=None, down=None):
    """A Media-Sub-Component (TS 29.214, 5.3.18)."""
    out = tgpp(509, number) + b"".join(tgpp(507, text) for text in filters)
    out += b"" if status is None else tgpp(511, status)
    out += b"" if usage is None else tgpp(512, usage)
    out += b"" if up is None else tgpp(516, up)
    out += b"" if down is None else tgpp(515, down)
    return tgpp(519, out)


def component(number, flows=(), media=None, status=None, up=None, down=None):
    """A Media-Component-Description (TS 29.214, 5.3.16)."""
    out = tgpp(518, number)
    out += b"" if media is None else tgpp(520, media)
    out += b"" if status is None else tgpp(511, status)
    out += b"" if up is None else tgpp(516, up)
    out += b"" if down is None else tgpp(515, down)
    return tgpp(517, out + b"".join(flows))


def aar(address=None, components=(), session="af;1", prefix=()):
    """An AA request of the host af (TS 29.214, 5.6.1)."""
    avps = [avp(263, session), avp(258, RX), avp(264, "af"), avp(296, "r")]
    avps += [avp(8, ip(address))] if address else []
    avps += [framed_prefix(*prefix)] if prefix else []
    return message(0xC0, 265, RX, avps + list(components), 5, 6)


def str_(session="af;1"):
    """A session termination request of the host af (TS 29.214, 5.6.4)."""
    return message(0xC0, 275, RX, [avp(263, session), avp(264, "af"), avp(296, "r")], 5, 6)


def asa(code=2001, session="af;1"):
    """An abort session answer of the host af (TS 29.214, 5.6.8)."""
    return message(0x40, 274, RX, [avp(263, session), avp(268, code), avp(264, "af"), avp(296, "r")], 7, 8)


def base(command, avps=()):
    """A request of the base protocol of the host gw (RFC 6733, 5.3 to 5.5)."""
    return message(0x80, command, BASE, [avp(264, "gw"), avp(296, "r")] + list(avps), 3, 4)


IN, OUT = "permit in ip from any to any", "permit out ip from any to any"
VOICE = component(1, [flow(1, [IN, OUT]), flow(2, [OUT], usage=1, status=2)], media=0, up=41000, down=80000)


# ---- answers

def result(code):
    """A Result-Code, or the Experimental-Result of 3GPP's own codes (RFC 6733, 7)."""
    if code in (5061, 5062, 5063, 5065, 5140):
        return avp(297, avp(266, TGPP) + avp(298, code))
    return avp(268, code)


def names(site):
    return [avp(264, f"s{site}"), avp(296, "r")]


def arp(priority, capability, vulnerability):
    parts = tgpp(1046, priority, 0) + tgpp(1047, capability, 0) + tgpp(1048, vulnerability, 0)
    return tgpp(1034, parts, 0)


def rule(name, filters, status, qci, up, down, priority, precedence):
    """A Charging-Rule-Definition (TS 29.212, 5.3.4). Classes 1 to 4 are guaranteed their greatest rates."""
    guaranteed = tgpp(1026, up) + tgpp(1025, down) if qci <= 4 else b""
    qos = tgpp(1028, qci) + tgpp(516, up) + tgpp(515, down) + guaranteed + arp(*priority)
    out = tgpp(1005, name) + b"".join(tgpp(1058, tgpp(507, text), 0) for text in filters)
    return tgpp(1003, out + tgpp(511, status) + tgpp(1016, qos) + tgpp(1010, precedence))


SIP = rule("op/sip", [OUT], 2, 5, 32000, 32000, (9, 1, 0), 40)
VOICE_RULES = [rule("af/af;1/1/1", [IN, OUT], 2, 1, 41000, 64000, (2, 0, 1), 100),
               rule("af/af;1/1/2", [OUT], 2, 1, 5000, 5000, (2, 0, 1), 100)]
QUALITY = [tgpp(1016, tgpp(1041, 1000000, 0) + tgpp(1040, 2000000, 0)), tgpp(1049, tgpp(1028, 5) + arp(9, 1, 0), 0)]


def cca(site, kind, number, code=2001, session="gw;1;1", rules=(), quality=True):
    """The answer to a credit control request that was read."""
    avps = [avp(263, session), avp(258, GX)] + names(site) + [result(code), avp(416, kind), avp(415, number)]
    avps += [tgpp(1001, b"".join(rules))] if rules else []
    return message(0x40, 272, GX, avps + (QUALITY if quality and code == 2001 and kind != 3 else []))


def aaa(site, code=2001, session="af;1"):
    return message(0x40, 265, RX, [avp(263, session), avp(258, RX)] + names(site) + [result(code)], 5, 6)


def sta(site, code=2001, session="af;1"):
    return message(0x40, 275, RX, [avp(263, session)] + names(site) + [result(code)], 5, 6)


def cea(site, code):
    """The answer to a capabilities exchange (RFC 6733, 5.3.2)."""
    apps = [avp(260, avp(266, TGPP) + avp(258, app)) for app in (GX, RX)]
    node = [avp(257, b"\0\1" + ip("127.0.0.1")), avp(266, 0), avp(269, "pcrf", flags=0)]
    return message(0, 257, BASE, [result(code)] + names(site) + node + apps, 3, 4)


def done(site, command):
    return message(0, command, BASE, [result(2001)] + names(site), 3, 4)


def refused(request, site, code, session=None):
    """The answer to a request that was not read.

    With a code of 5000 it names the application, for AAR under Rx and CCR under Gx.
    """
    flags, command = request[4], int.from_bytes(request[5:8], "big")
    app = int.from_bytes(request[8:12], "big")
    avps = [avp(263, session)] if session else []
    named = 5000 <= code < 6000 and (command, app) in ((272, GX), (265, RX))
    avps += [avp(258, app)] if named else []
    error = 0x20 if 3000 <= code < 4000 else 0
    hop, end = (int.from_bytes(request[at:at + 4], "big") for at in (12, 16))
    return message(flags & 0x40 | error, command, app, avps + names(site) + [result(code)], hop, end)


# ---- scripts

class Script:
    """A script, line by line, with what each line prints."""

    def __init__(self, sites):
        self.lines, self.prints, self.letters, self.epochs = [f"sites {sites}"], [f"sites {sites}"], 0, [1] * sites

    def note(self, text):
        self.lines.append(f"# {text}")

    def say(self, line, *printed):
        self.lines.append(line)
        self.prints += printed

    def ask(self, site, request, *answers):
        printed = [f"answer {a.hex()}" if isinstance(a, bytes) else a for a in answers]
        self.say(f"msg {site} {request.hex()}", *printed)

    def push(self, site, printed="none"):
        self.say(f"push {site}", printed)

    def abort(self, site, printed="none"):
        self.say(f"abort {site}", printed)

    def retell(self, site, session, printed="none"):
        self.say(f"retell {site} {session}", printed)

    def letter(self, maker, peer):
        self.say(f"letter {maker} {peer}", f"letter {self.letters}")
        self.letters += 1
        return self.letters - 1

    def merge(self, site, letter):
        self.say(f"merge {site} {letter}", "merged")

    def tell(self, maker, peer):
        """What a site made is told to a peer, which acknowledges it."""
        self.merge(peer, self.letter(maker, peer))
        self.say(f"ack {peer} {maker}", f"letter {self.letters}")
        self.letters += 1
        self.merge(maker, self.letters - 1)

    def restart(self, site):
        self.epochs[site] += 1
        self.say(f"restart {site}", f"restart {site} epoch {self.epochs[site]}")

    def show(self, site, *printed):
        self.say(f"show {site}", *printed, "end")

    def begin(self, text):
        """A case of its own, at sites that know nothing."""
        self.note("")
        self.note(text)
        for site in range(len(self.epochs)):
            self.restart(site)

    def attached(self, site=0, session="gw;1;1", address="10.0.0.1"):
        self.ask(site, attach(session, address), cca(site, 1, 0, session=session, rules=[SIP]))

    def reached(self, prefix, session="gw;1;1", address=None, rules=(SIP,)):
        """A session of a subscriber who has a prefix is set up at site 0."""
        request = ccr(1, 0, session, address, "IMS", (X,), prefix)
        self.ask(0, request, cca(0, 1, 0, session=session, rules=rules))

    def write(self, folder, name):
        for ending, lines in (("script", self.lines), ("out", self.prints)):
            with open(f"{folder}/{name}.{ending}", "w") as file:
                file.write("\n".join(lines) + "\n")


def live(session="gw;1;1", address="10.0.0.1", home=0):
    return f"gx {session} live {address} ims home {home}"


SIP_LINE = "rule 40 op/sip 2 5 32000 32000"
VOICE_LINES = ["rule 100 af/af;1/1/1 2 1 41000 64000", "rule 100 af/af;1/1/2 2 1 5000 5000"]
VOICE_TOLD = ["told af/af;1/1/1", "told af/af;1/1/2"]
VOICE_PUSH = "push gw;1;1 +af/af;1/1/1 +af/af;1/1/2"
VOICE_GONE = "push gw;1;1 -af/af;1/1/1 -af/af;1/1/2"


def call(s):
    """A subscriber is attached at site 0, and a call is set up there."""
    s.attached()
    s.ask(0, aar("10.0.0.1", [VOICE]), aaa(0))
    s.push(0, VOICE_PUSH)
    s.push(0)


def set_up_and_changed(s):
    s.begin("a call is set up, and its gateway is told of its two flows")
    call(s)
    s.show(0, "clock 3", live(), SIP_LINE, *VOICE_LINES, *VOICE_TOLD, "told op/sip", "af af;1 bound gw;1;1")
    s.begin("a component's status alone changes the flow that has none of its own")
    call(s)
    s.ask(0, aar(None, [component(1, status=3)]), aaa(0))
    s.push(0, "push gw;1;1 +af/af;1/1/1")
    s.show(0, "clock 5", live(), SIP_LINE, VOICE_LINES[0].replace("1/1 2", "1/1 3"), VOICE_LINES[1], *VOICE_TOLD,
           "told op/sip", "af af;1 bound gw;1;1")
    s.begin("a component that is removed stays removed")
    call(s)
    s.ask(0, aar(None, [component(1, status=4)]), aaa(0))
    s.push(0, VOICE_GONE)
    s.ask(0, aar(None, [VOICE]), aaa(0))
    s.push(0)


def refusals(s):
    s.begin("an AA request is refused by the first cause, and changes nothing")
    s.attached()
    far = aar("10.9.9.9", [VOICE])
    s.ask(0, far, aaa(0, 5065))
    denied = [component(1, [flow(1, ["deny in ip from any to any"])], media=0)]
    for address in ("10.0.0.1", "10.9.9.9"):
        request = aar(address, denied)
        s.ask(0, request, refused(request, 0, 5062, "af;1"))
    s.ask(0, aar("10.9.9.9", [component(1, media=9)]), aaa(0, 5063))
    s.ask(0, aar(None, [component(1, media=9)]), aaa(0, 5005))
    s.ask(0, str_(), sta(0, 5002))
    s.show(0, "clock 1", live(), SIP_LINE, "told op/sip")
    s.note("a session that has ended is never set up again, nor ended")
    s.ask(0, aar("10.0.0.1", [VOICE]), aaa(0))
    s.ask(0, str_(), sta(0))
    s.ask(0, aar(None, [component(1, media=9)]), aaa(0, 5002))
    s.ask(0, str_(), sta(0, 5002))
    s.show(0, "clock 3", live(), SIP_LINE, "told op/sip", "af af;1 ended")
    s.note("before the state is looked at: numbers that come twice, rows, commands and applications")
    twice = component(7, [flow(1), flow(1)])
    for components, code in (([component(1), component(1)], 5061), ([twice], 5061), (denied + [twice], 5061),
                             ([tgpp(517, b"")], 5005), ([component(1, status=5)], 5004),
                             ([tgpp(517, tgpp(518, b"\0"))], 5014), ([tgpp(517, b"\0" * 7)], 5014),
                             ([component(n) for n in range(65)], 5009)):
        request = aar("10.0.0.1", components)
        s.ask(0, request, refused(request, 0, code, "af;1"))
    nameless = message(0xC0, 275, RX, [avp(264, "af"), avp(296, "r")], 5, 6)
    s.ask(0, nameless, refused(nameless, 0, 5005))
    elsewhere = ((GX, 265, 3001), (RX, 272, 3001), (BASE, 275, 3001), (RX, 257, 3001), (9, 257, 3007))
    for application, command, code in elsewhere:
        request = message(0xC0, command, application, [avp(263, "af;1"), avp(264, "af"), avp(296, "r")])
        s.ask(0, request, refused(request, 0, code, "af;1"))


def bindings(s):
    s.begin("a call is bound to the session whose address is the newest")
    s.attached()
    s.attached(session="gw;1;2")
    s.ask(0, aar("10.0.0.1", [VOICE]), aaa(0))
    both = [live(), SIP_LINE, "told op/sip", live("gw;1;2"), SIP_LINE]
    s.show(0, "clock 3", *both, *VOICE_LINES, "told op/sip", "af af;1 bound gw;1;2")
    s.ask(0, ccr(3, 1, "gw;1;2"), cca(0, 3, 1, session="gw;1;2"))
    s.show(0, "clock 4", live(), SIP_LINE, *VOICE_LINES, "told op/sip", "gx gw;1;2 ended", "af af;1 bound gw;1;1")
    s.begin("under equal stamps to the greater Session-Id")
    s.attached()
    k = s.letter(0, 1)
    s.restart(0)
    s.attached(session="gw;1;2")
    s.merge(0, k)
    s.ask(0, aar("10.0.0.1", [VOICE]), aaa(0))
    s.show(0, "clock 2", *both, *VOICE_LINES, "told op/sip", "af af;1 bound gw;1;2")


def sites(s):
    s.begin("a call at another site is bound wherever both are known, and pushed by the session's home")
    s.attached(1, "gw;1;9", "10.0.0.9")
    s.tell(1, 2)
    s.attached()
    k = s.letter(0, 1)
    s.merge(1, k)
    s.ask(1, aar("10.0.0.1", [VOICE]), aaa(1))
    n = s.letter(1, 2)
    s.merge(2, n)
    other = [live("gw;1;9", "10.0.0.9", 1), SIP_LINE, "told op/sip"]
    s.show(2, "clock 2", *other, "af af;1 unbound")
    s.merge(2, k)
    s.show(2, "clock 2", live(), SIP_LINE, *VOICE_LINES, "told op/sip", *other, "af af;1 bound gw;1;1")
    s.push(2)
    s.merge(0, n)
    s.push(0, VOICE_PUSH)
    s.begin("a home that moved removes the rules of a call that ended elsewhere")
    s.attached()
    k = s.letter(0, 1)
    s.merge(1, k)
    s.ask(0, aar("10.0.0.1", [VOICE]), aaa(0))
    s.push(0, VOICE_PUSH)
    s.ask(1, ccr(2, 1), cca(1, 2, 1))
    s.ask(0, str_(), sta(0))
    a, b = s.letter(0, 1), s.letter(1, 0)
    s.merge(1, a)
    s.merge(0, b)
    s.push(0)
    s.push(1, VOICE_GONE)


def many(s):
    s.begin("fifty flows take two pushes")
    s.attached()
    s.ask(0, aar("10.0.0.1", [component(2, [flow(n, [OUT]) for n in range(1, 51)], media=0)]), aaa(0))
    rules = sorted(f"af/af;1/2/{n}" for n in range(1, 51))
    s.push(0, "push gw;1;1 +" + " +".join(rules[:40]))
    s.push(0, "push gw;1;1 +" + " +".join(rules[40:]))
    s.push(0)


NETWORK = (64, "20010db800000001")
WITHIN = (128, "20010db8000000010000000000000005")


def shown(bits, digits):
    """A prefix as a script prints it."""
    return f"{digits.ljust(32, '0')}/{bits}"


def prefixes(s):
    """Subscribers who have an IPv6 prefix, alone or beside an address."""
    s.begin("a session may have a prefix alone; a call binds to it by a prefix within, and by each of what it gives")
    s.reached(NETWORK)
    s.show(0, "clock 1", live(address=shown(*NETWORK)), SIP_LINE, "told op/sip")
    for prefix in ((128, "20010db8000000020000000000000005"), (56, "20010db8000000")):
        s.ask(0, aar(None, [VOICE], prefix=prefix), aaa(0, 5065))
    s.ask(0, aar("10.0.0.1", [VOICE], prefix=WITHIN), aaa(0, 5065))
    s.ask(0, aar(None, [VOICE], prefix=WITHIN), aaa(0))
    s.push(0, VOICE_PUSH)
    s.show(0, "clock 3", live(address=shown(*NETWORK)), SIP_LINE, *VOICE_LINES, *VOICE_TOLD, "told op/sip", "af af;1 bound gw;1;1")
    s.begin("prefixes that are none: too long, too short for their length, longer than an address; and one whose first byte and last "
            "bits don't count")
    for prefix in ((0x81, "20010db8000000010000000000000005"), (0x40, "20010db8000000"), (0x40, "20010db8000000010000000000000005ff"),
                   (1, ""), (255, "")):
        for request, session in ((ccr(1, 0, apn="IMS", subscribers=(X,), prefix=prefix), "gw;1;1"),
                                 (aar("10.0.0.1", [VOICE], prefix=prefix), "af;1")):
            s.ask(0, request, refused(request, 0, 5004, session))
    s.reached((61, "20010db80000000fffff", 0xFF))
    s.show(0, "clock 1", live(address=shown(61, "20010db800000008")), SIP_LINE, "told op/sip")
    s.begin("an initial request lacks parameters that gives neither an address nor a prefix")
    s.ask(0, ccr(1, 0, apn="IMS", subscribers=(X,)), cca(0, 1, 0, 5140))
    s.ask(0, ccr(1, 0, apn="IMS", prefix=NETWORK), cca(0, 1, 0, 5140))
    s.ask(0, aar(None, [VOICE]), aaa(0, 5005))
    s.show(0, "clock 0")
    s.begin("of two prefixes that have a call's the later binds it, though it is the shorter")
    s.reached(NETWORK)
    s.reached((60, "20010db800000000"), "gw;1;2")
    s.ask(0, aar(None, [VOICE], prefix=WITHIN), aaa(0))
    other = [live("gw;1;2", shown(60, "20010db800000000")), SIP_LINE]
    s.show(0, "clock 3", live(address=shown(*NETWORK)), SIP_LINE, "told op/sip", *other, *VOICE_LINES, "told op/sip",
           "af af;1 bound gw;1;2")
    s.note("once it says its prefix anew the first one is the later, and its address stays as old as it was")
    s.ask(0, ccr(2, 1, prefix=NETWORK), cca(0, 2, 1, rules=VOICE_RULES))
    s.push(0)
    s.show(0, "clock 4", live(address=shown(*NETWORK)), SIP_LINE, *VOICE_LINES, *VOICE_TOLD, "told op/sip", *other, "told op/sip",
           "af af;1 bound gw;1;1")
    s.begin("a session has both, and calls by the one, the other, and both; an update gives another prefix and leaves the address")
    s.reached(NETWORK, address="10.0.0.1")
    both = live(address=f"10.0.0.1,{shown(*NETWORK)}")
    s.ask(0, aar("10.0.0.1"), aaa(0))
    s.ask(0, aar(None, session="af;2", prefix=NETWORK), aaa(0, session="af;2"))
    s.ask(0, aar("10.0.0.1", session="af;3", prefix=WITHIN), aaa(0, session="af;3"))
    s.ask(0, aar("10.0.0.2", session="af;4", prefix=WITHIN), aaa(0, 5065, "af;4"))
    calls = [f"af af;{number} bound gw;1;1" for number in (1, 2, 3)]
    s.show(0, "clock 4", both, SIP_LINE, "told op/sip", *calls)
    s.ask(0, ccr(2, 1, prefix=(0, "")), cca(0, 2, 1))
    s.ask(0, ccr(2, 2, prefix=(32, "20010db9")), cca(0, 2, 2))
    s.show(0, "clock 6", live(address=f"10.0.0.1,{shown(32, '20010db9')}"), SIP_LINE, "told op/sip", calls[0], "af af;2 unbound",
           "af af;3 unbound")
    k = s.letter(0, 1)
    s.merge(1, k)
    s.show(1, "clock 6", live(address=f"10.0.0.1,{shown(32, '20010db9')}"), SIP_LINE, "told op/sip", calls[0], "af af;2 unbound",
           "af af;3 unbound")


def aborts(s):
    """Calls that lost their gateway's session."""
    s.begin("a call is aborted once, by its home, when its gateway's session ended")
    call(s)
    s.abort(0)
    s.ask(0, ccr(3, 1), cca(0, 3, 1))
    k = s.letter(0, 1)
    s.merge(1, k)
    s.abort(1)
    s.show(1, "clock 4", "gx gw;1;1 ended", "af af;1 unbound")
    s.abort(0, "abort af;1")
    s.abort(0)
    s.push(0)
    s.show(0, "clock 5", "gx gw;1;1 ended", "af af;1 unbound aborted")
    k = s.letter(0, 1)
    s.merge(1, k)
    s.abort(1)
    s.show(1, "clock 5", "gx gw;1;1 ended", "af af;1 unbound aborted")
    s.note("the application function's answer gets none; what it aborted may be bound again")
    s.ask(0, asa(), "no answer")
    s.ask(0, ccr(1, 0, "gw;1;2", "10.0.0.1", "IMS", (X,)), cca(0, 1, 0, session="gw;1;2", rules=[SIP, *VOICE_RULES]))
    s.abort(0)
    s.show(0, "clock 6", "gx gw;1;1 ended", live("gw;1;2"), SIP_LINE, *VOICE_LINES, *VOICE_TOLD, "told op/sip",
           "af af;1 bound gw;1;2 aborted")
    s.note("and ends by its application function's request; then nothing shows of the abort")
    s.ask(0, str_(), sta(0))
    s.abort(0)
    s.show(0, "clock 7", "gx gw;1;1 ended", live("gw;1;2"), SIP_LINE, *VOICE_TOLD, "told op/sip", "af af;1 ended")
    s.begin("of two calls the one with the lesser Session-Id is aborted first; one that a further request bound again is not, nor "
            "one that another site served last")
    s.attached()
    for session in ("af;3", "af;1", "af;2"):
        s.ask(0, aar("10.0.0.1", session=session), aaa(0, session=session))
    s.tell(0, 1)
    s.ask(1, aar(None, session="af;2"), aaa(1, session="af;2"))
    k = s.letter(1, 0)
    s.merge(0, k)
    s.ask(0, ccr(3, 1), cca(0, 3, 1))
    s.abort(0, "abort af;1")
    s.abort(1)
    s.attached(session="gw;1;2")
    s.abort(0)
    s.ask(0, ccr(3, 1, "gw;1;2"), cca(0, 3, 1, session="gw;1;2"))
    s.abort(0, "abort af;3")
    s.abort(0)
    k = s.letter(0, 1)
    s.merge(1, k)
    s.abort(1, "abort af;2")
    s.abort(1)


def retellings(s):
    """Gateways that may have lost what they were told."""
    all_rules = "push gw;1;1 +op/sip +af/af;1/1/1 +af/af;1/1/2"
    shown = [live(), SIP_LINE, *VOICE_LINES]
    s.begin("what a gateway was told counts as not there, once; the next push brings all rules")
    call(s)
    s.retell(0, "gw;1;1", "retold")
    s.retell(0, "gw;1;1")
    s.show(0, "clock 4", *shown, "af af;1 bound gw;1;1")
    s.push(0, all_rules)
    s.push(0)
    s.show(0, "clock 5", *shown, *VOICE_TOLD, "told op/sip", "af af;1 bound gw;1;1")
    s.note("the next answer brings them too")
    s.retell(0, "gw;1;1", "retold")
    s.ask(0, ccr(2, 1), cca(0, 2, 1, rules=[SIP, *VOICE_RULES]))
    s.push(0)
    s.note("a name that was removed is told no more")
    s.ask(0, str_(), sta(0))
    s.retell(0, "gw;1;1", "retold")
    s.push(0, "push gw;1;1 +op/sip")
    s.show(0, "clock 10", live(), SIP_LINE, "told op/sip", "af af;1 ended")
    s.note("nothing is done about a session that has ended, or isn't known, or is of an application function, or at no site")
    s.retell(0, "gw;1;2")
    s.retell(0, "af;1")
    s.retell(0, "\\x41\\x00")
    s.retell(3, "gw;1;1", "refused NoSuchSite")
    s.ask(0, ccr(3, 2), cca(0, 3, 2))
    s.retell(0, "gw;1;1")
    s.show(0, "clock 11", "gx gw;1;1 ended", "af af;1 ended")
    s.begin("a site that isn't the session's home does it too, and the home pushes once it took that")
    call(s)
    k = s.letter(0, 1)
    s.merge(1, k)
    s.retell(1, "gw;1;1", "retold")
    s.push(1)
    s.push(0)
    k = s.letter(1, 0)
    s.merge(0, k)
    s.show(0, "clock 4", *shown, "af af;1 bound gw;1;1")
    s.push(0, all_rules)
    s.note("a letter that comes twice changes nothing more")
    s.merge(0, k)
    s.push(0)
    s.begin("two sites do it before they hear of each other: one push tells all, and a later word counts above an earlier one")
    call(s)
    k = s.letter(0, 1)
    s.merge(1, k)
    s.retell(0, "gw;1;1", "retold")
    s.push(0, all_rules)
    s.retell(1, "gw;1;1", "retold")
    k = s.letter(1, 0)
    s.merge(0, k)
    s.push(0)
    s.show(0, "clock 5", *shown, *VOICE_TOLD, "told op/sip", "af af;1 bound gw;1;1")
    k = s.letter(0, 1)
    s.merge(1, k)
    s.retell(1, "gw;1;1", "retold")


def connections(s):
    s.begin("a gateway's session that ends leaves its call unbound")
    call(s)
    s.ask(0, ccr(3, 1), cca(0, 3, 1))
    s.push(0)
    s.show(0, "clock 4", "gx gw;1;1 ended", "af af;1 unbound")
    s.note("peers of the base protocol; a script goes on behind the end of a connection")
    s.ask(0, base(257, [avp(258, 4)]), cea(0, 5010))
    s.ask(0, base(257), cea(0, 5010))
    s.ask(0, base(257, [avp(258, GX)]), cea(0, 2001))
    s.ask(0, base(257, [avp(260, avp(266, TGPP) + avp(258, RX))]), cea(0, 2001))
    s.ask(0, base(257, [avp(258, 0xFFFFFFFF)]), cea(0, 2001))
    s.ask(0, base(280) + base(282) + base(280), done(0, 280), done(0, 282), done(0, 280))
    s.ask(0, message(0, 280, BASE, [], 3, 4) + base(280), "no answer", done(0, 280))
    short, odd = (b"\x01" + n.to_bytes(3, "big") + base(280)[4:20] for n in (16, 22))
    s.ask(0, base(280) + short, done(0, 280), "frame ShortLength")
    s.ask(0, odd, "frame OddLength")
    s.ask(0, base(280)[:-1], "frame Cut")
    nameless = message(0x80, 280, BASE, [avp(264, "gw")], 3, 4)
    s.ask(0, nameless, refused(nameless, 0, 5005))


def calls():
    s = Script(3)
    for case in (set_up_and_changed, refusals, bindings, prefixes, sites, many, aborts, retellings, connections):
        case(s)
    return s


def voice_call():
    s = Script(2)
    s.note("A call from a subscriber's attach to its end, at two sites that are both active.")
    s.note("")
    s.note("The gateway gw connects to site 0: a capabilities exchange that advertises Gx.")
    s.ask(0, base(257, [avp(260, avp(266, TGPP) + avp(258, GX))]), cea(0, 2001))
    s.note("The subscriber attaches: the gateway asks for the rules of its session gw;1;1 at the access point ims. The")
    s.note("answer installs the operator's rule op/sip, and tells the default quality of service.")
    s.attached()
    s.note("The application function sets up the call af;1 at the subscriber's address: voice, with a flow of media "
           "and one")
    s.note("of RTCP.")
    s.ask(0, aar("10.0.0.1", [VOICE]), aaa(0))
    s.note("The gateway is told of both by a re-authorisation request.")
    s.push(0, VOICE_PUSH)
    s.note("The gateway updates its session; it lacks no rule.")
    s.ask(0, ccr(2, 1), cca(0, 2, 1))
    s.note("A letter tells site 1 all that site 0 took: it holds the same.")
    k = s.letter(0, 1)
    s.merge(1, k)
    seen = [live(), SIP_LINE, *VOICE_LINES, *VOICE_TOLD, "told op/sip", "af af;1 bound gw;1;1"]
    s.show(0, "clock 4", *seen)
    s.show(1, "clock 4", *seen)
    s.note("The application function ends the call at site 1, which is not the home of the gateway's session, "
           "and pushes")
    s.note("nothing.")
    s.ask(1, str_(), sta(1))
    s.push(1)
    s.note("Its letter tells site 0, which has the gateway remove the call's rules.")
    k = s.letter(1, 0)
    s.merge(0, k)
    s.push(0, VOICE_GONE)
    s.note("The subscriber detaches.")
    s.ask(0, ccr(3, 2), cca(0, 3, 2))
    s.show(0, "clock 7", "gx gw;1;1 ended", "af af;1 ended")
    lost_in_a_call(s)
    return s


def lost_in_a_call(s):
    """The subscriber comes back with a prefix alone, and the gateway's session ends during a call."""
    s.note("")
    s.note("The subscriber attaches again, and has an IPv6 prefix of 64 bits and no IPv4 address.")
    s.reached(NETWORK, "gw;1;2")
    s.note("A call is set up for one address of that prefix, and the gateway is told of its flows.")
    s.ask(0, aar(None, [VOICE], "af;2", WITHIN), aaa(0, session="af;2"))
    s.push(0, "push gw;1;2 +af/af;2/1/1 +af/af;2/1/2")
    s.note("During the call the gateway loses the subscriber, and its session ends.")
    s.ask(0, ccr(3, 1, "gw;1;2"), cca(0, 3, 1, session="gw;1;2"))
    s.note("The call is bound to no session any more. Site 0 served its last request, and asks the application function")
    s.note("to abort it, once; the answer gets none.")
    s.abort(0, "abort af;2")
    s.ask(0, asa(session="af;2"), "no answer")
    s.abort(0)
    s.show(0, "clock 12", "gx gw;1;1 ended", "gx gw;1;2 ended", "af af;1 ended", "af af;2 unbound aborted")
    s.note("The application function ends the call.")
    s.ask(0, str_("af;2"), sta(0, session="af;2"))
    s.show(0, "clock 13", "gx gw;1;1 ended", "gx gw;1;2 ended", "af af;1 ended", "af af;2 ended")


if __name__ == "__main__":
    calls().write(sys.argv[1], "calls")
    voice_call().write(sys.argv[1], "voice_call")
