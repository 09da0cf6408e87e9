#!/usr/bin/env python3
"""Writes the scripts of worlds that show one thing each of what a site answers, pushes and holds; `fixed_sites.py DATA` writes them
into the folder DATA.

What they print is what the plain model gives. The message of a push is also written out here by hand, AVP by AVP, and compared
with what the model gives.
"""
import os
import sys
from itertools import permutations

from fixed_worlds import Lines, digits
from messages import GX, OUT, X, aar, avp, component, flow, ip, message, str_
from plain_facts import read_tables
from plain_site import World

TABLES = "nine-access-points.toml"

# ---- the message of a push, by hand

PUSHED = """
# The header: 428 bytes, R and P, Re-Auth, Gx, and the two identifiers.
010001ac c0000102 01000016 00000001 00000002
# Session-Id `gw;1;1`.
00000107 4000000e 67773b31 3b310000
# Auth-Application-Id: Gx.
00000102 4000000c 01000016
# Origin-Host `s0` and Origin-Realm `r`.
00000108 4000000a 73300000
00000128 40000009 72000000
# Destination-Realm `r` and Destination-Host `gw`.
0000011b 40000009 72000000
00000125 4000000a 67770000
# Re-Auth-Request-Type AUTHORIZE_ONLY.
0000011d 4000000c 00000000
# Charging-Rule-Remove of 32 bytes, V and M, and in it the Charging-Rule-Name `op/b40`.
000003ea c0000020 000028af
000003ed c0000012 000028af 6f702f62 34300000
# Charging-Rule-Install of 288 bytes, and in it a Charging-Rule-Definition of 276.
000003e9 c0000120 000028af
000003eb c0000114 000028af
# Charging-Rule-Name `af/af;1/1/1`.
000003ed c0000017 000028af 61662f61 663b312f 312f3100
# Flow-Information of 56 bytes, V alone, with a Flow-Description, V and M.
00000422 80000038 000028af
000001fb c0000029 000028af
7065726d 6974206f 75742069 70206672 6f6d2061 6e792074 6f20616e 79000000
# Flow-Status ENABLED.
000001ff c0000010 000028af 00000002
# QoS-Information of 152 bytes, V and M.
000003f8 c0000098 000028af
# QoS-Class-Identifier 1, 41000 bit/s up and 64000 down, and the same guaranteed.
00000404 c0000010 000028af 00000001
00000204 c0000010 000028af 0000a028
00000203 c0000010 000028af 0000fa00
00000402 c0000010 000028af 0000a028
00000401 c0000010 000028af 0000fa00
# Allocation-Retention-Priority of 60 bytes, V alone: level 2, may pre-empt, can't be pre-empted.
0000040a 8000003c 000028af
00000416 80000010 000028af 00000002
00000417 80000010 000028af 00000000
00000418 80000010 000028af 00000001
# Precedence 100.
000003f2 c0000010 000028af 00000064
"""


# ---- requests

def credit(kind, number, address=None, apn=None, session="gw;1;1", host="gw"):
    """A credit control request; one with an address has a subscriber too."""
    avps = [avp(263, session), avp(264, host), avp(296, "r"), avp(416, kind), avp(415, number)]
    avps += [X, avp(8, ip(f"10.0.0.{address}"))] if address else []
    avps += [avp(30, apn)] if apn else []
    return message(0xC0, 272, GX, avps)


def initial(number=0, address=1, apn="IMS", **other):
    """An initial request, of the first session where no other is named."""
    return credit(1, number, address, apn, **other)


def update(number, address=None, apn=None):
    """An update of the first session; one with an address names the access point IMS where it names no other."""
    return credit(2, number, address, apn or ("IMS" if address else None))


def end(number, apn=None, session="gw;1;1"):
    """The end of a session."""
    return credit(3, number, apn=apn, session=session)


def call():
    """An AA request of a flow of audio at the first session's address."""
    return aar("10.0.0.1", [component(1, [flow(1, [OUT])], media=0, up=41000, down=80000)])


# ---- what is granted, and what stays

def granted(lines):
    """Which requests are granted, and what they leave."""
    lines.begin(2, "initial requests lack parameters, or are granted, also once more")
    lines.ask(0, credit(1, 0), initial(), initial())
    lines.say("show 0", "letter 0 1")
    lines.begin(2, "a late update with a lower number leaves the address; one before the initial request is refused")
    lines.ask(0, update(1, 1), initial(), update(2, 2), update(1, 3))
    lines.say("show 0", "letter 0 1")
    lines.begin(2, "an ended session is never revived, at a site that ended it, and at one that served it meanwhile")
    lines.ask(0, initial())
    lines.say("letter 0 1", "merge 1 0")
    lines.ask(1, update(9))
    lines.ask(0, end(3), initial())
    lines.say("letter 1 0", "merge 0 1", "letter 0 1", "merge 1 2")
    for site in (0, 1):
        lines.say(f"show {site}")
        lines.ask(site, initial(), update(10, 4), end(4))
        lines.say(f"show {site}")
    lines.begin(2, "the home moves with the session, to a site that knows it")
    lines.ask(0, initial())
    lines.ask(1, update(1))
    lines.say("letter 0 1", "merge 1 0")
    lines.ask(1, update(1))
    lines.say("show 1", "letter 1 0")


def qualities(lines):
    """Which default quality of service answers tell, and which requests the tables have refused."""
    lines.begin(2, "an answer tells the default of the access point that the session shows")
    lines.ask(0, initial(), update(1), update(2, apn="NET"), update(3, apn="bare"), update(4))
    lines.begin(2, "a late request tells the default that it didn't give: the update with number 2 shows another access point")
    lines.ask(0, initial(), update(2, apn="net"), update(1, apn="bare"), update(1, apn="ims"), initial())
    lines.say("show 0", "letter 0 1")
    lines.begin(2, "an answer tells the default of what another site made")
    lines.ask(0, initial(apn="net"))
    lines.say("letter 0 1", "merge 1 0")
    lines.ask(1, update(1))
    lines.begin(2, "an update without a row is refused behind an unknown session, and changes nothing")
    lines.ask(0, update(1, 2, "none"), initial(), update(1, 2, "none"))
    lines.say("show 0", "letter 0 1")
    lines.begin(2, "an initial request lacks parameters before it lacks a row")
    lines.ask(0, initial(apn="none"), initial(address=None, apn="none"))
    lines.say("show 0")
    lines.begin(2, "a termination tells no quality, whatever access point it names, and nothing is granted then")
    lines.ask(0, initial(), end(1, "none"))
    lines.say("show 0")
    lines.ask(0, initial(apn="none"))


def carried(lines):
    """What a site carries over to another."""
    lines.begin(3, "a site that takes all that another holds shows the same, and made nothing itself")
    lines.ask(0, initial())
    lines.say("letter 0 1", "merge 1 0", "show 0", "show 1", "letter 1 2")
    lines.begin(3, "so with a call")
    lines.ask(0, initial(), aar("10.0.0.1"))
    lines.say("letter 0 1", "merge 1 0", "show 0", "show 1", "letter 1 2")
    for before, after, text in (({}, {"address": 9}, "the second life's address is the greater"),
                                ({"address": 9}, {}, "the first life's address is the greater"),
                                ({}, {"address": 9, "session": "gw;1;2"}, "both sessions show")):
        lines.begin(3, f"under equal stamps of two lives of a site, taken twice and in opposite orders: {text}")
        lines.ask(0, initial(**before))
        lines.say("letter 0 1", "restart 0", "show 0")
        lines.ask(0, initial(**after))
        lines.say("letter 0 1", "merge 1 0", "merge 1 0", "merge 1 1", "merge 1 1", "show 1",
                  "merge 2 1", "merge 2 1", "merge 2 0", "merge 2 0", "show 2", "letter 1 2", "letter 2 1")


# ---- any order

def known(lines, makers, number):
    """Each maker makes an operation that a site takes and says so, whence its letters for it have what it makes then alone. It
    gives the number of the next letter."""
    letter = 0
    for maker in range(makers):
        lines.ask(maker, initial(address=99, session=f"gw;0;{maker}"))
        lines.say(f"letter {maker} {number}", f"merge {number} {letter}", f"ack {number} {maker}", f"merge {maker} {letter + 1}")
        letter += 2
    return letter


def each_made(lines, makers, made):
    """What sites make one after another of the first session: the site and its request. A site that makes its first operation of
    it takes that of site 0 before. It gives the letters with one operation each."""
    letter = known(lines, makers, makers)
    letters, told, first = [], {maker: 0 for maker in range(makers)}, None
    for maker, asked in made:
        if first is not None and maker and not told[maker]:
            lines.say(f"merge {maker} {first}")
        lines.ask(maker, asked)
        # (what this site made is acknowledged, so that its next letter has the next operation alone)
        lines.say(f"letter {maker} {makers}", f"merge {makers} {letter}", f"ack {makers} {maker}", f"merge {maker} {letter + 1}")
        letters.append(letter)
        first = letter if first is None else first
        told[maker] += 1
        letter += 2
    return letters


def in_orders(lines, makers, made, text):
    """Sites that take four operations, each twice, in an order, and again in another: each of the 24 orders comes first once."""
    orders = list(permutations(range(4)))
    for part in (0, 12):
        lines.begin(makers + 13, f"{text}: orders {part + 1} to {part + 12} of 24")
        letters = each_made(lines, makers, made)
        for place in range(12):
            taker = makers + 1 + place
            for order in (orders[part + place], orders[23 - part - place]):
                lines.say(*[f"merge {taker} {letters[at]}" for at in order for _ in range(2)], f"show {taker}")
            lines.say(f"letter {taker} 0")


def orders(lines):
    """Four operations of one session, taken in any order."""
    in_orders(lines, 3, [(0, initial()), (1, update(1, 3)), (2, update(2)), (0, update(2, 2))],
              "the address is that of the greatest number, and of two equal numbers and counters the greater site is the home")
    in_orders(lines, 2, [(0, initial()), (0, update(1, 2)), (0, end(1)), (1, update(9, 9))],
              "a session that ended has ended, also where a site served it meanwhile")


# ---- what is told

def told(lines):
    """Which rules answers tell."""
    lines.begin(2, "a rule is installed once, and removed with its access point")
    for request in (initial(apn="TWO"), initial(apn="TWO"), update(1, apn="one"), update(2, apn="bare"), update(3, apn="TWO")):
        lines.ask(0, request)
        lines.say("show 0")
    lines.ask(0, end(4))
    lines.say("show 0")
    lines.begin(2, "a rule that differs in one field is installed again")
    lines.ask(0, initial(apn="slow"), update(1, apn="fast"), update(2, apn="fast"))
    lines.say("show 0", "letter 0 1")
    lines.begin(2, "another site tells what was not told")
    lines.ask(0, initial(apn="two"))
    lines.say("letter 0 1", "merge 1 0")
    lines.ask(1, update(1), update(2, apn="one"))
    lines.say("letter 1 0", "merge 0 1")
    lines.ask(0, update(3))
    lines.begin(2, "an answer tells 40 entries, and later ones the rest: of 64 rules, then of their removal and of 41 others")
    lines.ask(0, initial(apn="many"))
    lines.say("show 0")
    lines.ask(0, update(1), update(2, apn="more"), update(3), update(4), update(5))
    lines.say("show 0")


def pushed(lines):
    """What is pushed."""
    lines.begin(2, "a push tells what an answer left of 64 rules")
    lines.ask(0, initial(apn="many"))
    lines.say("push 0", "push 0", "show 0")
    lines.begin(2, "the session with the least Session-Id is pushed first")
    lines.ask(0, initial(apn="more"), initial(address=2, apn="more", session="gw;1;0"))
    lines.say("push 0", "push 0", "push 0")
    lines.begin(2, "sessions of two gateways are pushed to each")
    lines.ask(0, initial(apn="more"), initial(address=2, apn="more", session="pgw;1;1", host="pgw"))
    lines.say("push 0", "push 0", "push 0")
    lines.begin(2, "what another site serves is not pushed, nor what ended")
    lines.ask(0, initial(apn="more"))
    lines.say("letter 0 1", "merge 1 0", "push 1")
    lines.ask(0, end(1))
    lines.say("push 0")
    lines.begin(2, "a site that takes what was told and pushed holds the same, and pushes nothing")
    lines.ask(0, initial(apn="more"))
    lines.say("push 0", "push 0", "letter 0 1", "merge 1 0", "show 0", "show 1", "push 1")
    lines.begin(2, "a push removes a rule and installs one, in a message that is written out by hand")
    lines.say(*PUSHING)
    lines.begin(2, "a call's rule moves with its binding to a later session of its address, and back where that one ends")
    lines.ask(0, initial(apn="slow"), call())
    lines.say("push 0")
    lines.ask(0, initial(apn="slow", session="gw;1;2"))
    lines.say("push 0", "push 0", "show 0")
    lines.ask(0, end(1, session="gw;1;2"))
    lines.say("push 0", "push 0", "show 0")
    lines.begin(2, "a whole state is taken with its bindings: the site that took it tells the call's rule, and that it is gone")
    lines.ask(0, initial(apn="slow"), initial(address=2, apn="slow", session="gw;1;2"), call())
    lines.say("letter 0 1", "merge 1 0", "show 1")
    lines.ask(1, update(1), str_())
    lines.say("push 1", "push 1", "show 1")


# A session of 41 rules, all told; an access point without any, of which the answer leaves one removal; a call, and the push.
PUSHING = [f"msg 0 {initial(apn='more').hex()}", "push 0", f"msg 0 {update(1, apn='bare').hex()}",
           f"msg 0 {call().hex()}", "push 0", f"msg 0 {str_().hex()}", "push 0"]


def judge(folder):
    """The model pushes the message that is written out by hand."""
    world = World(read_tables(os.path.join(folder, TABLES)), 1)
    for line in PUSHING:
        world.obey(line)
    assert world.pushes[1].hex() == digits(PUSHED), "the model pushes another message than the one by hand"


def main(folder):
    """Writes the file."""
    lines = Lines("What a site answers, pushes and holds.", "fixed_sites")
    for script in (granted, qualities, carried, orders, told, pushed):
        script(lines)
    lines.write(folder, "sites.scripts")
    judge(folder)


if __name__ == "__main__":
    main(*sys.argv[1:])
