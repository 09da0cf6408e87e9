#!/usr/bin/env python3
"""Writes the cases of `pcrf_checks` in which calls are bound among as many sessions of gateways, both drawn from a seed: 300 by their
addresses, and 200 by addresses and prefixes.

`bindings.py` prints the lines, with what the plain model says. Sessions have few counters, sites, addresses,
prefixes and access points, so that many match a call and many have equal stamps. Of the calls by address one of five asks for one
that no session has, and one of six for such an access point. It fails where too little is reached.
"""
import sys

from letters import EDITION
from plain_facts import Fact, Session, Tag, View, binding, bits, covers, matches, reached_last
from plain_letters import MOST_CARRIED, Range
from plain_run import letter_octets
from words import operation_of

MAKER = 1  # the site that made all letters

SESSIONS, EACH = 300, 60
BY_PREFIX = 200
BITS = (0, 32, 56, 61, 64, 64, 64, 128)
APNS = ["ims", "net", "none"]
SUBSCRIBERS = ["1:a", "1:b", "0:a"]
MASK = 2 ** 64 - 1


class Draws:
    """Pseudo-random numbers, by the method called SplitMix64."""

    def __init__(self, seed):
        self.state = seed

    def below(self, bound):
        """The next number below a bound."""
        self.state = (self.state + 0x9E3779B97F4A7C15) & MASK
        first = (self.state ^ (self.state >> 30)) * 0xBF58476D1CE4E5B9 & MASK
        second = (first ^ (first >> 27)) * 0x94D049BB133111EB & MASK
        return (second ^ (second >> 31)) % bound


def subscribers(bits):
    """The subscribers whose bits a number has."""
    return [name for place, name in enumerate(SUBSCRIBERS) if bits >> place & 1]


def word(field, value):
    """The word that says a field."""
    if field == "prefix":
        return f"with prefix={value[1].hex()}/{value[0]}"
    return f"{field}={'+'.join(value) if isinstance(value, list) else value}"


class Case:
    """The lines by which a site takes letters that come from elsewhere and is asked for bindings, each with what it prints, behind so many
    letters; and the facts that the letters say."""

    def __init__(self, heading, site, letters=0):
        self.lines = [(f"# {heading} (oracle/bindings.py)", [])]
        self.site, self.letters = site, letters
        self.untaken, self.facts, self.calls = [], [], []

    def ask(self, request, kind, name, stamp, fields, client):
        """A request, with what it gives; a prefix last."""
        words = [word(field, value) for field, value in sorted(fields.items(), key=lambda pair: pair[0] == "prefix")]
        self.untaken.append(operation_of(" ".join([request, name, f"@0.{stamp[0]}.{stamp[1]}"] + words)))
        session, tag = Session(kind, name.encode()), Tag(0, *stamp)
        for field, value in {**fields, **client}.items():
            self.facts.append(Fact(session, (field,), tag, tuple(value) if isinstance(value, list) else value))

    def end(self, name):
        """The end of a gateway's session."""
        self.untaken.append(operation_of(f"terminate {name} @1.9.0"))
        self.facts.append(Fact(Session("gx", name.encode()), ()))

    def take(self):
        """Has the site take what it hasn't taken yet."""
        while self.untaken:
            carried, self.untaken = self.untaken[:MOST_CARRIED], self.untaken[MOST_CARRIED:]
            letter = letter_octets({"edition": EDITION}, Range(MAKER, 1, 0, tuple(carried)))
            self.lines.append((f"post {letter.hex()}", [f"letter {self.letters}"]))
            self.lines.append((f"merge {self.site} {self.letters}", ["merged"]))
            self.letters += 1


def gateway(draws, case, name):
    """A gateway's session."""
    counter, site, address = draws.below(4) + 1, draws.below(3), draws.below(20)
    apn, bits = draws.below(2), draws.below(7) + 1
    fields = {"address": f"10.0.0.{address}", "apn": APNS[apn], "subscribers": subscribers(bits)}
    case.ask("initial", "gx", name, (counter, site), fields, {"host": "gw", "realm": "r", "last": 1})


def call(draws, case, name):
    """A call, which asks for an address, and perhaps for more."""
    address, apn, bits = draws.below(25), draws.below(6), draws.below(8)
    counter, site = draws.below(4) + 1, draws.below(3)
    for bound in (20, 2, 7):
        draws.below(bound)
    fields = {"address": f"10.0.0.{address}"}
    if apn < len(APNS):
        fields["apn"] = APNS[apn]
    if bits:
        fields["subscribers"] = subscribers(bits)
    case.ask("call", "af", name, (counter, site), fields, {"host": "af", "realm": "r", "last": 0})


def prefix(draws):
    """A prefix of one of few lengths, of which many cover one another."""
    length = BITS[draws.below(len(BITS))]
    octets = b"\x20\x01\x0d\xb8\0\0\0" + bytes([draws.below(12)]) + bytes(7) + bytes([draws.below(2)])
    mask = (1 << 128) - (1 << 128 - length)
    return length, (int.from_bytes(octets, "big") & mask).to_bytes(16, "big")


def reached(draws, addresses):
    """Where a user is reached: by an address, by a prefix, or by both."""
    how = draws.below(4)
    address, found = f"10.0.0.{draws.below(addresses)}", prefix(draws)
    return {**({} if how < 2 else {"address": address}), **({} if how == 3 else {"prefix": found})}


def gateway_reached(draws, case, name):
    """A gateway's session that has an address, a prefix or both; some later say one of these anew."""
    counter, site, apn, has = draws.below(4) + 1, draws.below(3), draws.below(2), draws.below(7) + 1
    fields = {**reached(draws, 3), "apn": APNS[apn], "subscribers": subscribers(has)}
    case.ask("initial", "gx", name, (counter, site), fields, {"host": "gw", "realm": "r", "last": 1})
    if draws.below(3) == 0:
        stamp = (draws.below(4) + 2, draws.below(3))
        case.ask("update", "gx", name, stamp, reached(draws, 3), {"host": "gw", "realm": "r", "last": 2})


def call_reached(draws, case, name):
    """A call that gives an address, a prefix or both, and perhaps more."""
    counter, site, apn, has = draws.below(4) + 1, draws.below(3), draws.below(6), draws.below(8)
    fields = reached(draws, 4)
    if apn < len(APNS):
        fields["apn"] = APNS[apn]
    if has:
        fields["subscribers"] = subscribers(has)
    case.ask("call", "af", name, (counter, site), fields, {"host": "af", "realm": "r", "last": 0})


def is_by_id(view, af, bound):
    """Whether another session that matches last said under the same counter and site where it is reached, so that the Session-Id
    decides."""
    stamp = reached_last(view, bound)
    others = [gx for gx in view.all_live("gx") if gx != bound and matches(view, af, gx)]
    return any(reached_last(view, gx) == stamp for gx in others)


def drawn(case, count, each, gateway_of, call_of):
    """Draws so many sessions of gateways and calls, and asks for the binding of each call after some of them. It gives how many
    were asked for, bound, and bound by their Session-Id."""
    draws, gateways, compared, bound, by_id = Draws(1), [], 0, 0, 0
    for number in range(count):
        gateways.append(f"{number * 0x9E3779B1 % 2 ** 32:08x}")
        gateway_of(draws, case, gateways[-1])
        place = draws.below(400)
        if place < len(gateways):
            case.end(gateways[place])
        case.calls.append(f"{number:08x}")
        call_of(draws, case, case.calls[-1])
        if number % each != each - 1:
            continue
        view, prints = View(case.facts), []
        for name in case.calls:
            asking = Session("af", name.encode())
            found = binding(view, asking)
            prints.append(f"af {name} " + ("unbound" if found is None else f"bound {found.id.decode()}"))
            compared += 1
            bound += found is not None
            by_id += found is not None and is_by_id(view, asking, found)
        case.take()
        case.lines.append((f"bindings {case.site}", prints))
    return compared, bound, by_id


def by_address():
    """The lines of calls that are bound by their addresses."""
    case = Case("calls drawn from a seed are bound among gateways' sessions that are drawn too", 0)
    case.lines.append(("sites 2", ["sites 2"]))
    compared, bound, by_id = drawn(case, SESSIONS, EACH, gateway, call)
    if compared != 900 or not 200 <= bound <= 700 or by_id < 20:
        sys.exit(f"bindings: {compared} compared, {bound} bound, {by_id} by their Session-Id")
    return case


def covering(case, view):
    """The lines that ask which live sessions of gateways cover a prefix, for each prefix that a call gives."""
    asked = sorted({fact.value for fact in case.facts if fact.place == ("prefix",) and fact.session.kind == "af"})
    for found in asked:
        names = [gx.id.decode() for gx in view.all_live("gx") if view.shows(gx, "prefix") and covers(view.value(gx, "prefix"), found)]
        yield f"covering {case.site} {found[1].hex()}/{found[0]}", [f"gx {name}" for name in names]


def by_prefix(letters):
    """The lines of calls that are bound by addresses and prefixes, behind so many letters."""
    case = Case("so are calls by prefixes of 0 to 128 bits that cover one another, by addresses, and by both", 1, letters)
    compared, bound, by_id = drawn(case, BY_PREFIX, BY_PREFIX // 2, gateway_reached, call_reached)
    view = View(case.facts)
    calls = [Session("af", name.encode()) for name in case.calls]
    found = [(af, binding(view, af)) for af in calls]
    shorter = sum(gx is not None and view.shows(af, "prefix") and bits(view.value(af, "prefix")) != bits(view.value(gx, "prefix"))
                  for af, gx in found)
    both = sum(gx is not None and view.shows(af, "prefix") and view.shows(af, "address") for af, gx in found)
    alone = sum(gx is not None and not view.shows(gx, "address") for af, gx in found)
    if not 80 <= bound <= compared - 60 or min(by_id, shorter, both, alone) < 8:
        sys.exit(f"bindings: {compared} compared, {bound} bound, {by_id} by their Session-Id, {shorter} by a shorter prefix, {both} by "
                 f"both, {alone} to one without an address")
    return case.lines + list(covering(case, view))


def lines():
    """The lines of both cases."""
    case = by_address()
    return case.lines + by_prefix(case.letters)


if __name__ == "__main__":
    for asked, said in lines():
        print(asked, *("> " + one for one in said), sep="\n")
