#!/usr/bin/env python3
"""Writes the scripts of worlds that show one thing each; `fixed_worlds.py DATA` writes them into the folder DATA.

What they print is what the plain model gives. The answer with rules and a default quality, the request of an abort and letters are
also written out here by hand, and compared with what the model gives.
"""
import os
import sys

import letters
from messages import GX, NETWORK, OUT, RX, VOICE, WITHIN, X, Y, aar, asa, avp, ccr, component, flow, ip, message, str_
from plain_facts import read_tables
from plain_site import World, run_script

# ---- one request and its answer, by hand

BY_HAND = """
# The header: 164 bytes, R and P, Credit-Control, Gx, and the two identifiers.
010000a4 c0000110 01000016 00000001 00000002
# Session-Id `gw;1;1`.
00000107 4000000e 67773b313b310000
# Origin-Host `gw` and Origin-Realm `r`.
00000108 4000000a 67770000
00000128 40000009 72000000
# Auth-Application-Id: Gx.
00000102 4000000c 01000016
# CC-Request-Type 1 and CC-Request-Number 0.
000001a0 4000000c 00000001
0000019f 4000000c 00000000
# Subscription-Id: Subscription-Id-Type 1 (IMSI), Subscription-Id-Data `001010000000001`.
000001bb 4000002c 000001c2 4000000c 00000001
000001bc 40000017 30303130 31303030 30303030 30303100
# Framed-IP-Address 10.0.0.1 and Called-Station-Id `IMS`.
00000008 4000000c 0a000001
0000001e 4000000b 494d5300
"""

ANSWER = """
# The header: 1052 bytes, P alone.
0100041c 40000110 01000016 00000001 00000002
# Session-Id `gw;1;1`.
00000107 4000000e 67773b313b310000
# Auth-Application-Id: Gx.
00000102 4000000c 01000016
# Origin-Host `s0` and Origin-Realm `r`.
00000108 4000000a 73300000
00000128 40000009 72000000
# Result-Code 2001.
0000010c 4000000c 000007d1
# CC-Request-Type 1 and CC-Request-Number 0.
000001a0 4000000c 00000001
0000019f 4000000c 00000000
# Charging-Rule-Install of 812 bytes, V and M.
000003e9 c000032c 000028af
# In it a Charging-Rule-Definition of 236 bytes, V and M, of `op/SIP`.
000003eb c00000ec 000028af
000003ed c0000012 000028af 6f702f53 49500000
# Flow-Information, V alone, with a Flow-Description, V and M.
00000422 80000034 000028af
000001fb c0000028 000028af
7065726d 69742069 6e206970 2066726f 6d20616e 7920746f 20616e79
# Flow-Status 0.
000001ff c0000010 000028af 00000000
# QoS-Information: class 9, rates 1 up and 4294967295 down, not guaranteed.
000003f8 c0000078 000028af
00000404 c0000010 000028af 00000009
00000204 c0000010 000028af 00000001
00000203 c0000010 000028af ffffffff
# Allocation-Retention-Priority: 1, 0 and 0, V alone.
0000040a 8000003c 000028af
00000416 80000010 000028af 00000001
00000417 80000010 000028af 00000000
00000418 80000010 000028af 00000000
# Precedence 40.
000003f2 c0000010 000028af 00000028
# In it a Charging-Rule-Definition of 240 bytes, V and M, of `op/sip`.
000003eb c00000f0 000028af
000003ed c0000012 000028af 6f702f73 69700000
# Flow-Information, V alone, with a Flow-Description, V and M.
00000422 80000038 000028af
000001fb c0000029 000028af
7065726d 6974206f 75742069 70206672 6f6d2061 6e792074 6f20616e 79000000
# Flow-Status 2.
000001ff c0000010 000028af 00000002
# QoS-Information: class 5, rates 32000 up and 32000 down, not guaranteed.
000003f8 c0000078 000028af
00000404 c0000010 000028af 00000005
00000204 c0000010 000028af 00007d00
00000203 c0000010 000028af 00007d00
# Allocation-Retention-Priority: 9, 1 and 0, V alone.
0000040a 8000003c 000028af
00000416 80000010 000028af 00000009
00000417 80000010 000028af 00000001
00000418 80000010 000028af 00000000
# Precedence 40.
000003f2 c0000010 000028af 00000028
# In it a Charging-Rule-Definition of 324 bytes, V and M, of `op/a\\b`.
000003eb c0000144 000028af
000003ed c0000012 000028af 6f702f61 5c620000
# Flow-Information, V alone, with a Flow-Description, V and M.
00000422 80000034 000028af
000001fb c0000028 000028af
7065726d 69742069 6e206970 2066726f 6d20616e 7920746f 20616e79
# Flow-Information, V alone, with a Flow-Description, V and M.
00000422 80000038 000028af
000001fb c0000029 000028af
7065726d 6974206f 75742069 70206672 6f6d2061 6e792074 6f20616e 79000000
# Flow-Status 3.
000001ff c0000010 000028af 00000003
# QoS-Information: class 1, rates 0 up and 64000 down, guaranteed.
000003f8 c0000098 000028af
00000404 c0000010 000028af 00000001
00000204 c0000010 000028af 00000000
00000203 c0000010 000028af 0000fa00
00000402 c0000010 000028af 00000000
00000401 c0000010 000028af 0000fa00
# Allocation-Retention-Priority: 15, 0 and 1, V alone.
0000040a 8000003c 000028af
00000416 80000010 000028af 0000000f
00000417 80000010 000028af 00000000
00000418 80000010 000028af 00000001
# Precedence 4294967295.
000003f2 c0000010 000028af ffffffff
# QoS-Information of 44 bytes, V and M, of the vendor 10415.
000003f8 c000002c 000028af
# In it APN-Aggregate-Max-Bitrate-UL 1000000 and APN-Aggregate-Max-Bitrate-DL 2000000, V alone.
00000411 80000010 000028af 000f4240
00000410 80000010 000028af 001e8480
# Default-EPS-Bearer-QoS of 88 bytes, V alone.
00000419 80000058 000028af
# In it QoS-Class-Identifier 5, V and M.
00000404 c0000010 000028af 00000005
# Behind that Allocation-Retention-Priority of 60 bytes, V alone.
0000040a 8000003c 000028af
# In it Priority-Level 9, Pre-emption-Capability 1 and Pre-emption-Vulnerability 0, V alone.
00000416 80000010 000028af 00000009
00000417 80000010 000028af 00000001
00000418 80000010 000028af 00000000
"""


ABORT = """
# The header: 108 bytes, R and P, Abort-Session, Rx, and the two identifiers.
0100006c c0000112 01000014 00000007 00000008
# Session-Id `af;1` and Auth-Application-Id: Rx.
00000107 4000000c 61663b31
00000102 4000000c 01000014
# Origin-Host `s0` and Origin-Realm `r`.
00000108 4000000a 73300000
00000128 40000009 72000000
# Destination-Realm `r` and Destination-Host `af`.
0000011b 40000009 72000000
00000125 4000000a 61660000
# Abort-Cause BEARER_RELEASED, of the vendor 10415.
000001f4 c0000010 000028af 00000000
"""

# A range of the abort of `af;1` at counter 1, a range of the end of `gw;1;1` by the request of number 5 at counter 2, and an
# acknowledgement: version, edition, site, epoch and kind, then the body.
LETTERS = ["""
0000002e 03 00000007 00 0001 01
0000000000000000 00000001
0000000000000001 00 00000000 02 0004 61663b31 00000001 08
""", """
00000030 03 00000007 00 0001 01
0000000000000001 00000001
0000000000000002 00 00000005 01 0006 67773b313b31 00000001 01
""", """
00000014 03 00000007 01 0001 03 00 0001 0000000000000001
"""]


def digits(text):
    """The digits of such lines."""
    return "".join("".join(line.split(" ")) for line in text.split("\n") if not line.startswith("#"))


# ---- scripts

class Lines:
    """The lines of scripts, one after another."""

    def __init__(self, heading, maker="fixed_worlds"):
        self.lines = [f"# {heading} Made by oracle/{maker}.py."]

    def begin(self, sites, text):
        """A script of so many sites."""
        self.lines += [f"# {text}", f"sites {sites}"]

    def ask(self, site, *requests):
        """A site is sent requests, one by one."""
        self.lines += [f"msg {site} {request.hex()}" for request in requests]

    def say(self, *lines):
        """Lines as they are."""
        self.lines += lines

    def write(self, folder, name):
        """Writes the file."""
        with open(os.path.join(folder, name), "w", encoding="ascii") as file:
            file.write("\n".join(self.lines) + "\n")


def first(session="gw;1;1", address="10.0.0.1", apn="IMS"):
    """The initial request of a session."""
    return ccr(1, 0, session, address, apn, (X, Y))


def taken(lines):
    """What sites serve that they took of each other."""
    update = ccr(2, 1)
    lines.begin(3, "a site that took a letter serves the session, and one that took its end serves it no more")
    lines.ask(0, first())
    lines.say("letter 0 1", "merge 1 0")
    lines.ask(1, ccr(2, 9))
    lines.ask(0, ccr(3, 3), first())
    lines.say("letter 1 0", "merge 0 1")
    lines.ask(0, first())
    lines.say("show 0")
    lines.begin(3, "a site serves an update once it took what the session's first site wrote, and is then its home")
    lines.ask(0, first())
    lines.ask(1, update)
    lines.say("letter 0 1", "merge 1 0")
    lines.ask(1, update)
    lines.say("show 1")
    lines.begin(3, "two sites take the letters of two lives of a third in opposite orders, each letter twice")
    lines.ask(0, first())
    lines.say("letter 0 1", "restart 0")
    lines.ask(0, first(address="10.0.0.9"))
    lines.say("letter 0 2", "merge 1 0", "merge 1 0", "merge 1 1", "merge 1 1", "merge 2 1", "merge 2 1", "merge 2 0",
              "merge 2 0", "show 1", "show 2")
    lines.begin(3, "an update that shows nothing counts in the clock, and in that of a site that takes the whole state")
    lines.ask(0, first(), ccr(2, 5), ccr(2, 4))
    lines.say("show 0", "letter 0 1", "merge 1 0", "show 1")
    lines.begin(3, "a range of nothing, and from the site's next life a whole state of nothing")
    lines.ask(0, first())
    lines.say("letter 0 1", "merge 1 0", "ack 1 0", "merge 0 1", "letter 0 1", "restart 0", "letter 0 1", "merge 1 3",
              "show 1")
    lines.begin(3, "sites and letters that are not there")
    lines.say("ack 3 0", "ack 0 3", "ack 2 2", "merge 2 0", "merge 2 1")


def called(lines):
    """A call that a site takes before the session that it is bound to, and after it."""
    lines.begin(4, "a call is bound once the gateway's session is known, whichever comes first")
    lines.ask(1, first("gw;1;9", "10.0.0.9"))
    for peer, letter in ((2, 0), (3, 2)):
        lines.say(f"letter 1 {peer}", f"merge {peer} {letter}", f"ack {peer} 1", f"merge 1 {letter + 1}")
    lines.ask(0, first())
    lines.say("letter 0 1", "merge 1 4")
    lines.ask(1, aar("10.0.0.1", [component(1, [flow(1, [OUT], usage=2)])]))
    lines.say("letter 1 2", "merge 2 5", "show 2", "merge 2 4", "show 2", "merge 3 4", "merge 3 5", "show 3")


def small(command, application, *avps):
    """A request of the session `a` that says little."""
    return message(0xC0, command, application, [avp(263, "a"), avp(264, "h"), avp(296, "r"), *avps])


def many_operations(lines):
    """Letters of more operations than a range has: of 250 requests."""
    lines.begin(3, "a range has 100 operations at most, and a whole state all: 250 requests at site 0, of which site 1 learns "
                   "in ranges, and site 2 by whole states")
    attach = small(272, GX, avp(416, 1), avp(415, 0), X, avp(8, ip("10.0.0.1")), avp(30, "ims"))
    lines.ask(0, attach)
    lines.say("letter 0 1", "merge 1 0", "ack 1 0", "merge 0 1")
    lines.ask(0, small(265, RX, avp(8, ip("10.0.0.1"))), *[small(265, RX)] * 99)
    lines.say("letter 0 2", "merge 2 2", "show 2")
    lines.ask(0, *[small(265, RX)] * 149)
    lines.say("letter 0 2", "merge 2 3", "show 2")
    for letter in (4, 6, 8, 10):
        lines.say("letter 0 1", f"merge 1 {letter}", "ack 1 0", f"merge 0 {letter + 1}")
    lines.say("show 1")


def left_over(lines):
    """What an answer left of what it tells is pushed."""
    odd = "gw;\\ 1"
    lines.begin(1, "a push tells what an answer left of what it installs, and of what it removes")
    lines.ask(0, first(odd, apn="Many"))
    lines.say("push 0", "push 0")
    lines.ask(0, ccr(2, 1, odd, apn="internet"))
    lines.say("push 0", "push 0", "show 0")
    lines.begin(3, "what was told by an answer and by a push is known to a site that takes what another made, and to one that takes "
                   "all that it holds: both show the same, push nothing, and made nothing themselves")
    lines.ask(0, first(odd, apn="Many"))
    lines.say("letter 0 1", "merge 1 0", "ack 1 0", "merge 0 1", "push 0", "letter 0 1", "merge 1 2", "letter 0 2", "merge 2 3",
              "show 0", "show 1", "show 2", "push 1", "push 2", "letter 1 2", "letter 2 1")


def by_hand(lines):
    """The request whose answer is written out by hand."""
    lines.begin(1, "an answer with rules and a default quality of service, whose bytes are written out by hand")
    lines.say(f"msg 0 {digits(BY_HAND)}")


def each_kind(lines):
    """A session of each kind, as it is shown."""
    signalling = aar("10.0.0.2", [component(1, [flow(1, ["permit out tcp from any to any"], usage=2)])], "af \\2")
    lines.begin(4, "each kind of session is shown: live, ended and in part, bound and not, with bytes that are no letters")
    lines.ask(0, first("gw;1;4", "10.0.0.4"), aar("10.0.0.4", [VOICE], "af;4"))
    lines.say("letter 0 1", "merge 1 0", "ack 1 0", "merge 0 1", "restart 1")
    lines.ask(0, ccr(2, 1, "gw;1;4"), aar(None, [component(1)], "af;4"))
    lines.say("letter 0 1", "merge 1 2", "show 1")
    lines.ask(1, first(), aar("10.0.0.1", [VOICE]))
    lines.ask(3, first("gw 1\\2", "10.0.0.2", "net"))
    lines.say("letter 3 1", "merge 1 3")
    lines.ask(1, signalling, first("gw;1;3", "10.0.0.3"), aar("10.0.0.3", [], "af;3"), aar("10.0.0.3", [VOICE], "af;5"))
    lines.ask(1, str_("af;5"), ccr(3, 1, "gw;1;3"))
    lines.say("show 1", "push 1", "push 1", "show 1")


def pushing(lines):
    """Who pushes, and what first."""
    odd = "gw;\\ 1"
    begun = [first(odd), aar("10.0.0.1", [VOICE])]
    lines.begin(2, "a site that is not the session's home pushes nothing, before and after it knows the session")
    lines.say("push 1")
    lines.ask(0, *begun)
    lines.say("letter 0 1", "merge 1 0", "push 1", "push 2", "push 18446744073709551616", "push 0", "letter 0 1", "merge 1 1",
              "push 1")
    lines.begin(1, "of two sessions the one with the lesser Session-Id is pushed first")
    lines.ask(0, *begun, first("gw;1;1", "10.0.0.2"), aar("10.0.0.2", [VOICE], "af;2"))
    lines.say("push 0", "push 0", "push 0")


def exchanged(lines, site, peer, letter):
    """A site's letter for a peer is taken, and acknowledged; it gives the number of the next letter."""
    lines.say(f"letter {site} {peer}", f"merge {peer} {letter}", f"ack {peer} {site}", f"merge {site} {letter + 1}")
    return letter + 2


def abandoned(lines):
    """Calls that lost their gateway's session, and who aborts them."""
    lines.begin(3, "a call that lost its gateway's session is aborted once, by its home alone; other sites learn of it by a whole state")
    lines.ask(0, first(), aar("10.0.0.1", [VOICE]))
    lines.say("push 0", "abort 0")
    lines.ask(0, ccr(3, 1))
    lines.say("letter 0 1", "merge 1 0", "abort 1", "show 1", *ABORTING, "show 0", "letter 0 1", "merge 1 1", "abort 1", "show 1",
              "letter 1 2", "merge 2 2", "show 2")
    lines.ask(0, asa())
    lines.say("# what was aborted may be bound again, and ends by its application function's request")
    lines.ask(0, first("gw;1;2"))
    lines.say("abort 0", "show 0")
    lines.ask(0, str_())
    lines.say("abort 0", "show 0", "letter 0 2", "merge 2 3", "show 2")
    lines.begin(2, "and by a range of that operation alone")
    lines.ask(0, first(), aar("10.0.0.1"), ccr(3, 1))
    letter = exchanged(lines, 0, 1, 0)
    lines.say(*ABORTING)
    exchanged(lines, 0, 1, letter)
    lines.say("show 1", "letter 1 0")
    lines.begin(3, "two sites that are the home of a call one after the other abort it both, before they learn of each other")
    lines.ask(0, first(), aar("10.0.0.1"))
    letter = exchanged(lines, 0, 1, 0)
    lines.ask(1, aar(None))
    lines.ask(0, ccr(3, 1))
    letter = exchanged(lines, 0, 1, letter)
    lines.say("abort 0", "abort 1")
    letter = exchanged(lines, 0, 1, letter)
    lines.say("abort 1", "letter 1 0", f"merge 0 {letter}", "show 0", "show 1", "letter 0 2", "letter 1 2")
    lines.begin(2, "the first of several by their Session-Ids; none of them is aborted by a site that isn't its home")
    lines.ask(0, first(), *[aar("10.0.0.1", [], session) for session in ("af;3", "a \\", "af;2")], ccr(3, 1))
    lines.say("abort 0", "abort 1", "abort 0", "show 0", "abort 2", "abort 18446744073709551616", "letter 0 1", "merge 1 0", "abort 1")
    lines.ask(1, first("gw;1;2"), aar(None, session="af;3"), ccr(3, 1, "gw;1;2"))
    lines.say("abort 1", "abort 1", "show 1")


def reached(lines):
    """Sessions that have prefixes, at several sites."""
    lines.begin(3, "a call binds to a prefix that covers its own wherever both are known, and to the one that is the newest")
    lines.ask(0, ccr(1, 0, "gw;1;1", None, "IMS", (X,), NETWORK))
    lines.say("letter 0 1", "merge 1 0")
    lines.ask(1, aar(None, [VOICE], prefix=WITHIN))
    lines.say("letter 1 2", "merge 2 1", "show 2", "merge 2 0", "show 2")
    lines.ask(2, ccr(1, 0, "gw;1;2", "10.0.0.2", "IMS", (X,), (56, "20010db8000000")), ccr(1, 0, "gw;1;3", None, "IMS", (X,), (0, "")))
    lines.say("letter 2 0", "merge 0 2", "show 0", "push 2", "push 2", "letter 1 0", "merge 0 3", "show 0", "push 0", "abort 0")
    lines.begin(2, "of two lives of a site under equal stamps the greater prefix shows: the longer, then the one of greater bytes")
    for prefix in ((64, "20010db800000001"), (56, "ffff"), (64, "20010db800000002"), (128, "")):
        octets = (prefix[1] or "00").ljust(2 * -(-prefix[0] // 8), "0")
        lines.ask(0, ccr(1, 0, "gw;1;1", None, "IMS", (X,), (prefix[0], octets)))
        lines.say("letter 0 1", "restart 0")
    for order in ((0, 1, 2, 3), (3, 2, 1, 0)):
        for letter in order:
            lines.say(f"merge 1 {letter}", "show 1")
        lines.say("restart 1")


# A site aborts a call, and then none.
ABORTING = ["abort 0", "abort 0"]


def judge_abort(folder):
    """The model gives the request of an abort, and letters, that are written out by hand."""
    world = World(read_tables(os.path.join(folder, "telephony.toml")), 1)
    for request in (first(), aar("10.0.0.1"), ccr(3, 1)):
        world.obey(f"msg 0 {request.hex()}")
    world.obey("abort 0")
    assert [one.hex() for one in world.aborts] == [digits(ABORT)], "the model aborts by another message than the one by hand"
    known = [letters.one(letters.operation([letters.ABORTED])), letters.letter(letters.acknowledgement(), site=1),
             letters.letter(letters.log_range([letters.gx([letters.END], number=5, counter=2)], first=1))]
    assert {one.hex() for one in known} == {digits(one) for one in LETTERS}, "the model has other letters than those by hand"


def judge(folder):
    """The model gives the answer that is written out by hand."""
    tables = read_tables(os.path.join(folder, "four-access-points.toml"))
    printed = run_script(tables, ["sites 1", f"msg 0 {digits(BY_HAND)}"])
    assert printed == ["sites 1", f"answer {digits(ANSWER)}"], "the model gives another answer than the one by hand"


def main(folder):
    """Writes all files."""
    files = {"letters": ("What sites take of each other.", [taken, called, many_operations]),
             "rules": ("What answers and pushes tell.", [left_over, by_hand]),
             "shown": ("What a site shows and pushes.", [each_kind, pushing]),
             "reached": ("Sessions that have IPv6 prefixes, and calls that lost their gateway's session.", [reached, abandoned])}
    for name, (heading, scripts) in files.items():
        lines = Lines(heading)
        for script in scripts:
            script(lines)
        lines.write(folder, f"{name}.scripts")
    judge(folder)
    judge_abort(folder)


if __name__ == "__main__":
    main(*sys.argv[1:])
