#!/usr/bin/env python3
"""Writes what the measures of `pcrf_checks` obey, by a measure's name and sizes: `bench_input.py NAME SIZE..` (docs/PERFORMANCE.md).

The lines are messages and letters, in hexadecimal digits, and what is done with them (crates/pcrf_checks/src/measures.rt), under the
operator tables of examples/telephony.toml; for the measure `tables N` under those that `bench_input.py points N` writes. Without a
name it writes each kind of measure at a small size, which the gate runs.
"""
import functools
import pathlib
import re
import sys

import messages
from letters import (address, apn, filters, flow, gx, host, last, letter, log_range, operation, realm, rule, subscribers, told)
from messages import BASE, GX, IN, OUT, RX, avp, message, subscriber

TABLES = pathlib.Path(__file__).resolve().parent.parent / "examples/telephony.toml"
GATEWAY, APPLICATION, REALM = "gw.example", "af.example", "example"
BATCH = 1000


# ---- messages, each of the session of a place

def address_of(place):
    return bytes([10]) + place.to_bytes(3, "big")


def credit(kind, place, more=()):
    named = [avp(263, f"{GATEWAY};1876543210;{place}"), avp(264, GATEWAY), avp(296, REALM)]
    return message(0xC0, 272, GX, named + [avp(258, GX), avp(416, kind), avp(415, kind), *more], 1, 1)


def initial(place):
    user = [subscriber(1, f"00101{place:010}"), avp(8, address_of(place)), avp(30, "ims")]
    return credit(1, place, user)


def initial_at(place, at):
    """That of a session at an address, and of a subscriber, that others have before and after it."""
    user = [subscriber(1, f"00101{at:010}"), avp(8, address_of(at)), avp(30, "ims")]
    return credit(1, place, user)


def network_of(place):
    return bytes([0x20, 0x01, 0x0D, 0xB8]) + place.to_bytes(4, "big")


def initial_prefixed(place):
    """That of a session with the prefix of a network, and no address."""
    user = [subscriber(1, f"00101{place:010}"), avp(97, bytes([0, 64]) + network_of(place)), avp(30, "ims")]
    return credit(1, place, user)


def update(place):
    return credit(2, place)


def termination(place):
    return credit(3, place)


def call_of(place, user):
    """An AA request of one flow of audio with two filters."""
    audio = messages.component(1, [messages.flow(1, [IN, OUT])], media=0)
    named = [avp(263, f"{APPLICATION};1876543210;{place}"), avp(258, RX), avp(264, APPLICATION), avp(296, REALM)]
    return message(0xC0, 265, RX, named + [user, audio], 1, 1)


def call(place):
    return call_of(place, avp(8, address_of(place)))


def call_prefixed(place):
    """That of a user at one address of the session's network, given as a prefix of all bits."""
    return call_of(place, avp(97, bytes([0, 128]) + network_of(place) + (5).to_bytes(8, "big")))


def call_end(place):
    named = [avp(263, f"{APPLICATION};1876543210;{place}"), avp(264, APPLICATION), avp(296, REALM)]
    return message(0xC0, 275, RX, named, 1, 1)


def watchdog(_):
    return message(0x80, 280, BASE, [avp(264, GATEWAY), avp(296, REALM)], 1, 1)


def described(components):
    """An AA request of so many components, each with as many flows as the profile and the longest message have room for."""
    flows = 35 if components > 8 else 64
    many = [messages.component(place, [messages.flow(number) for number in range(flows)]) for place in range(components)]
    return message(0xC0, 265, RX, [avp(263, "af.host;1;1"), avp(264, "af.host"), avp(296, "realm"), *many], 1, 1)


# ---- operations, each of the session of a place

def session_of(place):
    return f"{GATEWAY};1876543210;{place}".encode()


def client(kind):
    return [host(GATEWAY.encode()), realm(REALM.encode()), last(kind)]


def attached(place, counter, more=()):
    """The operation of an initial request."""
    user = [address(address_of(place)), apn(), subscribers([(1, f"00101{place:010}".encode())])]
    return gx(user + client(1) + list(more), session=session_of(place), counter=counter)


def attached_told(place, counter):
    """That of one whose answer told the rule of the access point."""
    return attached(place, counter, [told(b"op/sip", rule())])


def updated(place, counter):
    return gx(client(2), number=1, session=session_of(place), counter=counter)


def told_many(count, counter):
    """What a gateway was told of so many rules."""
    names = sorted(f"af/af.host;1;{place}/1/1".encode() for place in range(count))
    return gx([told(name, rule()) for name in names], session=session_of(1), counter=counter)


def rated_many(count, counter):
    """The uplink rates of so many flows."""
    return operation([flow(place // 32, place % 32, 4, place) for place in range(count)], counter=counter)


def flows_of_two(place, counter):
    """The filters and the rate of two flows of one component."""
    audio = filters([IN.encode()])
    facts = [flow(1, number, row, value) for number in (1, 2) for row, value in ((1, audio), (4, 41000))]
    return operation(facts, counter=counter, session=f"{APPLICATION};1876543210;{place}".encode())


def mixed(step, size):
    """Each place once, in a mixed order, by steps of a prime."""
    return [turn * step % size for turn in range(size)]


# ---- lines

def block(made):
    for each in made:
        print(each.hex())


def asked(kind, places, name="-"):
    """So many requests of a kind, a thousand as one stream."""
    places = list(places)
    for first in range(0, len(places), BATCH):
        block(kind(place) for place in places[first:first + BATCH])
        print("ask", name)


def taken(operations, name="-", into="state", at_once=True):
    """Letters of a hundred operations each, in one block or each in one of its own."""
    for first in range(0, len(operations), 100):
        print(letter(log_range(operations[first:first + 100])).hex())
        if not at_once:
            print("take", into, name)
    if at_once:
        print("take", into, name)


def called(sessions, attach=initial, ask=call):
    """Each of so many sessions attaches and has a call, and its gateway is told its rules."""
    print("site")
    asked(attach, range(sessions))
    asked(ask, range(sessions))
    print(f"push {GATEWAY} {sessions} due -")
    print(f"push {GATEWAY} 1 none -")


# ---- measures

def requests(measure, sessions, timed, kinds):
    """A request of each kind: so many as one stream, then as many of the next sessions apart."""
    print(f"print {measure}: {sessions} sessions")
    for kind, first, step, name in kinds:
        places = [first + turn * step for turn in range(2 * timed)]
        asked(kind, places[:timed], f"{measure}: {name}")
        block(kind(place) for place in places[timed:])
        print(f"part {measure}: {name}")
    print(f"print {measure}: requests")


def streams(sessions, timed=100):
    print("site")
    asked(initial, range(sessions))
    requests("streams", sessions, timed, [
        (watchdog, 0, 1, "watchdog"), (update, 0, 1, "update"), (initial, sessions, 1, "initial request"),
        (termination, sessions, 1, "termination"), (call, 0, 1, "AA request"), (call_end, 0, 1, "session termination request")])


def streams_called(sessions, timed=100):
    """Requests of sessions that attached before are spread over all of them."""
    streams_of("streams_called", sessions, timed, initial, call)


def streams_prefixed(sessions, timed=100):
    """So, where sessions have the prefix of a network each, calls that of an address in it, and nobody an IPv4 address."""
    streams_of("streams_prefixed", sessions, timed, initial_prefixed, call_prefixed)


def streams_of(measure, sessions, timed, attach, ask):
    called(sessions, attach, ask)
    step = max(sessions // 1000, 1)
    requests(measure, sessions, timed, [
        (watchdog, 0, 1, "watchdog"), (update, 0, step, "update"), (attach, sessions, 1, "initial request"),
        (ask, sessions, 1, "AA request"), (call_end, sessions // 4, step, "session termination request"),
        (termination, sessions // 2, step, "termination")])


def grown(sessions, called_first=1000):
    """Sessions with calls, and then each of so many in all attaches alone: the slowest has a table grow."""
    called(called_first)
    for place in range(called_first, sessions):
        asked(initial, [place], f"grown: initial request of session {place}")
        if place % 100 == 99 or place == sessions - 1:
            print("print grown: sessions")


def come_and_go(sessions, pool=1000):
    """So many sessions in all come and go, as many at once as there are addresses and subscribers."""
    print("site")
    for first in range(0, sessions, pool):
        places = range(first, first + pool)
        asked(lambda place: initial_at(place, place % pool), places)
        if first in (0, sessions - pool):
            print(f"listed {pool} listings: {first + pool} came, {pool} are there")
        asked(termination, places)
        if first in (0, sessions - pool):
            print(f"listed {pool} listings: {first + pool} came, none is there")
    print(f"print listings: {pool} addresses and subscribers")


def pushes(sessions, vain=100_000, due=200):
    called(sessions)
    print(f"push {GATEWAY} {vain} none pushes: to a gateway, nothing due")
    print(f"push gx.example {vain} none pushes: to a host that is unseen")
    asked(initial, range(sessions, sessions + due))
    print(f"push {GATEWAY} 1 none -")
    for place in range(sessions, sessions + due):
        asked(call, [place])
        print(f"push {GATEWAY} 1 due pushes: one session is due")
        print(f"push {GATEWAY} 1 none pushes: the next, nothing due")
    print(f"print pushes: {sessions} sessions, as many calls")


def whole(sessions):
    print("site")
    asked(initial, range(sessions))
    print(f"whole {GATEWAY} whole")
    print(f"print whole: {sessions} sessions")
    called(sessions)
    print(f"whole {GATEWAY} whole")
    print(f"print whole: {sessions} sessions, as many calls")


def whole_state_kept(sessions):
    taken([attached_told(place, 1) for place in range(sessions)], "whole: taken and kept in a state", at_once=False)
    print(f"print whole: {sessions} sessions")


def whole_site_kept(sessions):
    print("site")
    taken([attached_told(place, 1) for place in range(sessions)], "whole: taken and kept in a site", "site", at_once=False)
    print(f"push {GATEWAY} 1 none whole: a first push")
    print(f"print whole: {sessions} sessions")


PASSES = [(deed, kind) for deed in ("taken", "told") for kind in ("bare", "locked", "living")]


def whole_passed(sessions, passes=PASSES, rounds=5):
    """A whole state, taken and told by a site of each kind, which holds it already."""
    print("site")
    taken([attached_told(place, 1) for place in range(sessions)], into="site", at_once=False)
    for deed, kind in passes:
        print(f"pass {kind} {deed} {rounds} whole: {deed}, {kind}")
    print(f"print whole: {sessions} sessions")


def rounds_of(sessions):
    """How often what is measured once for each session is done, so that it is done a hundred thousand times."""
    return max(100_000 // sessions, 1) if sessions >= 1000 else 1


def attachments(sessions):
    return [attached(place, turn + 1) for turn, place in enumerate(mixed(7_368_787, sessions))]


def states(sessions):
    attaches = attachments(sessions)
    updates = [updated(place, sessions + turn + 1) for turn, place in enumerate(mixed(15_485_863, sessions))]
    for _ in range(rounds_of(sessions)):
        print("state")
        taken(attaches, "states: take, of a new session")
        taken(updates, "states: take, of a session that is there")
        print("merge states: merge of two equal states, a session")
    print(f"print states: {sessions} sessions")


def states_kept(sessions):
    taken(attachments(sessions), "states: taken and kept", at_once=False)
    print(f"print states: {sessions} sessions")


def carried(sessions):
    print("state")
    taken(attachments(sessions))
    for _ in range(rounds_of(sessions)):
        print("carry letters: a session")
    print(f"print letters: {sessions} sessions")


def renew(sessions, rounds=5):
    print("site")
    asked(initial, range(sessions))
    asked(call, range(sessions))
    for turn in range(rounds):
        print("renew renew: a session")
        print(f"print renew: {sessions} sessions, round {turn + 1}")


def records(facts, rounds=10_000):
    for name, made in (("Gx", told_many), ("AF", rated_many)):
        block([letter(log_range([made(facts, 1), made(facts, 2)]))])
        print(f"records {max(rounds // facts, 1)} records: {name}")
    print(f"print records: {facts} facts")


def records_kept(kind):
    made = attached_told if kind == 1 else flows_of_two
    taken([made(place, 1) for place in range(10_000)], "records: taken and kept", at_once=False)
    print(f"print records: of {'Gx' if kind == 1 else 'AF'}")


def rx(components, rounds=100):
    request = described(components)
    block([request])
    print(f"read {rounds} rx: reading a request")
    print(f"print rx: {components} components: {len(request)} bytes")


def rx_kept(components, count=100):
    """So many at once, of which what they say is kept until all are read."""
    block([described(components)] * count)
    print("read 1 rx: read and kept")
    print(f"print rx: {components} components")


def book(threads, sessions=1000, rounds=100):
    print("site")
    asked(initial, range(sessions))
    block(update(place) for place in mixed(15_485_863, sessions))
    print(f"steps {rounds} book: updates of a bare site, one thread")
    print(f"calls {threads} {rounds // threads} settled book: updates of a locked site")
    print(f"print book: {threads} threads")


def book_updates_kept(entries, sessions=1000, verb="calls 1 {} left"):
    print("site")
    asked(initial, range(sessions))
    block(update(place) for place in mixed(15_485_863, sessions))
    print(verb.format(entries // sessions), "book: updates, kept")
    print(f"print book: {entries} updates")


def book_bare_kept(entries):
    book_updates_kept(entries, verb="steps {}")


def book_pushes_kept(entries, at_once=1000):
    print("site")
    for _ in range(at_once):
        print("-")
    print(f"calls 1 {entries // at_once} left book: pushes, kept")
    print(f"print book: {entries} pushes")


def living(rounds, sessions=1000):
    print("site")
    asked(initial, range(sessions))
    block(update(place) for place in mixed(15_485_863, sessions))
    print(f"steps {rounds} living: updates of a bare site")
    print(f"living {rounds} living: updates of a site that lives")
    print(f"print living: {rounds * sessions} updates")


def living_idle(calls, at_once=1000):
    """Watchdogs, and pushes of nothing, in turn."""
    print("site")
    for place in range(at_once // 2):
        print(watchdog(place).hex())
        print("-")
    print(f"steps {calls // at_once} living: watchdogs and pushes of nothing, of a bare site")
    print(f"living {calls // at_once} living: watchdogs and pushes of nothing, of a site that lives")
    print(f"print living: {calls} watchdogs and pushes of nothing")


def tables(count, names=None):
    names = names or [f"apn{place}" for place in range(count)]
    print(f"tables 10 tables: {count} access points")
    print("look 10", *names)
    print(f"print tables: {count} access points")


def points(count):
    """The text of operator tables with so many access points like the first one of the example."""
    text = "".join(line for line in TABLES.open(encoding="utf-8") if not line.startswith("#") and line.strip())
    before, point, _ = re.split(r"(?=^\[\[apn\]\]$)", text, flags=re.M)
    sys.stdout.write(before + "".join(point.replace('"ims"', f'"apn{place}"', 1) for place in range(count)))


MEASURES = {made.__name__: made for made in (
    streams, streams_called, streams_prefixed, grown, come_and_go, pushes, whole, whole_state_kept, whole_site_kept, whole_passed, states, states_kept, renew,
    records, records_kept, rx, rx_kept, book, book_updates_kept, book_bare_kept, book_pushes_kept, living, living_idle, tables, points)} | {"letters": carried} | {
    f"whole_{deed}_{kind}": functools.partial(whole_passed, passes=[(deed, kind)], rounds=1) for deed, kind in PASSES}


def every_measure():
    """Each verb, at a small size."""
    streams_called(8, timed=2)
    grown(4, called_first=2)
    come_and_go(6, pool=2)
    pushes(2, vain=3, due=2)
    whole(2)
    whole_site_kept(2)
    whole_passed(2, rounds=2)
    states(3)
    carried(3)
    renew(2, rounds=1)
    records(3, rounds=6)
    rx(1, rounds=2)
    rx_kept(0, count=2)
    book(2, sessions=2, rounds=4)
    book_pushes_kept(4, at_once=2)
    living(4, sessions=2)
    living_idle(4, at_once=2)
    tables(2, ["ims"])


def main(words):
    name, *sizes = words or ["every"]
    if name == "every":
        every_measure()
    for size in sizes:
        MEASURES[name](int(size))


if __name__ == "__main__":
    main(sys.argv[1:])
