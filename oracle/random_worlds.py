#!/usr/bin/env python3
"""Draws random scripts of worlds, which are run line by line and as one `World::run`.

`random_worlds.py DATA` writes the scripts for two of the operator tables in the folder DATA there: of one site to five, a few
of sixteen, and one that is long. It prints how often each thing was reached, and fails where it was reached too seldom, or
where sites that took all letters differ. All gateways have one host, `gw`, and all application functions `af`: so a push to it pushes
what a push to any does, and so with aborts.
"""
import os
import sys

from plain_facts import binding, matches, read_tables
from plain_letters import Acknowledged, taken_of
from plain_requests import AAR, CCR, GX, RX, Refused, cut_stream, first, read_header, read_request
from plain_site import World
from random_calls import RandomScript
from random_messages import ADDRESSES, AF_SESSIONS, GX_SESSIONS, Draw
from tally import Tally

HOST, FUNCTION = b"gw", b"af"
FILES = {"telephony": (range(5000, 5044), [b"IMS", b"ims", b"net", b"NET"]),
         "four-access-points": (range(5050, 5082), [b"IMS", b"ims", b"iNternet", b"internet", b"Z\\\xc3\x80",
                                                    b"z\\\xc3\x80", b"im"])}
LONG = 5039
MANY = [b"Many", b"internet", b"many"]
LEAST = {
    **{f"{name} 2001": count for name, count in (("CCR-I", 150), ("CCR-U", 40), ("CCR-T", 4), ("AAR", 50), ("STR", 6))},
    **{f"{name} 2001": 2 for name in ("CER", "DWR", "DPR")},
    "CCR-I 5002": 1, "CCR-U 5002": 20, "CCR-T 5002": 2, "STR 5002": 5, "AAR 5002": 1, "CCR-I 5003": 10, "CCR-U 5003": 1,
    "CCR-I 5140": 10, "AAR 5005": 2, "AAR 5063": 1, "AAR 5065": 10, "AAR unread 5061": 1, "AAR unread 5062": 1,
    "CCR unread 5004": 1, "CCR unread 5005": 1, "AAR unread 5005": 1, "no answer": 2, "two messages": 2,
    "CCA with quality": 50, "CCA without quality": 20, "CCA installs": 60, "CCA removes": 5, "answer leaves more": 1,
    "late": 3, "push installs": 20, "push removes": 5, "push does both": 1, "push none": 40,
    "letter": 150, "range": 15, "range of nothing": 1, "range past the cursor": 2, "ack": 40, "late ack": 1,
    "lost": 25, "repeated": 15, "reordered": 6, "merge changes": 100, "merge changes nothing": 50, "own letter": 5,
    "restart": 30, "old letter after a restart": 2, "refused NoSuchSite": 3, "refused NoSuchLetter": 5,
    "gx live": 200, "gx ended": 5, "gx partial": 3, "af bound": 30, "af unbound": 6, "af ended": 5, "af partial": 2,
    "gx by address": 100, "gx by prefix": 15, "gx by both": 30, "aborts": 12, "abort none": 20, "af unbound aborted": 10, "af bound aborted": 3,
    "retold": 12, "retell none": 20,
    "bound by a prefix": 10, "bound by a shorter prefix": 5, "prefix decides": 2,
    "rule": 200, "told": 200, "escaped": 20, "by number": 10, "by site": 2, "all letters": 8,
}


class RandomWorld(RandomScript):
    """A short script of a world."""

    least = LEAST

    def __init__(self, tables, seed, tally, apns):
        super().__init__(tables, seed, tally)
        has_many = apns[-1] == b"im" and seed == 5051
        self.draw, self.refusals = Draw(seed, MANY if has_many else apns, [HOST], [FUNCTION]), False
        self.many, self.ends = seed % 15 == 7, seed % 5 == 3 or seed == 5032
        self.steady = seed % 10 == 3 or self.many and self.ends
        self.count = 16 if self.many else (2, 3, 5)[seed % 3] if self.ends else (1, 2, 3, 4)[seed % 4]
        self.world, self.began = World(tables, self.count), [0] * self.count
        self.lines = self.prints = [f"sites {self.count}"]
        self.prints, self.merged = list(self.lines), {}

    # ---- lines

    def msg(self, octets, site=None):
        """A site is given bytes, if no gateway and no application function is of another host."""
        site = site or self.site()
        if not all(is_of_host(frame) for frame in cut_stream(octets)[0]):
            return
        before = None if int(site) >= self.count else self.world.sites[int(site)].copy()
        super().msg(octets, site)
        if before:
            self.tally["late"] += is_late(before, octets)

    def tally_cca(self, frame, answer):
        """Counts what an answer to a credit control request has."""
        super().tally_cca(frame, answer)
        self.tally["CCA with quality"] += (1049).to_bytes(4, "big") + b"\x80" in answer

    def letter(self, site=None, peer=None):
        """A site makes a letter for another."""
        before = len(self.world.letters)
        super().letter(site, peer)
        self.tally["letter"] += len(self.world.letters) > before

    def tally_merge(self, site, letter, before):
        """Counts what a letter brought, and whether it came again, or behind a later one of its sender."""
        super().tally_merge(site, letter, before)
        taken = self.merged.setdefault((site, self.world.sites[site].epoch), [])
        sender = self.world.letters[letter].sender
        self.tally["repeated"] += letter in taken
        self.tally["reordered"] += any(one > letter and self.world.letters[one].sender == sender for one in taken)
        taken.append(letter)

    def show(self, site=None):
        """A site is shown."""
        site = site or self.site()
        super().show(site)
        if int(site) < self.count:
            self.tally_deciders(self.world.sites[int(site)])

    def tally_deciders(self, site):
        """Counts what decides which of a session's operations show."""
        view = site.view()
        for session in view.all_live("af"):
            self.tally_binding(view, session)
        for session in view.all_live("gx"):
            tags = [fact.tag for one in site.operations for fact in one.facts
                    if fact.session == session and fact.place == ("last",)]
            shown = max(tags)
            self.tally["by number"] += any(tag.counter > shown.counter for tag in tags)
            self.tally["by site"] += any(tag[:2] == shown[:2] and tag.site < shown.site for tag in tags)

    def tally_binding(self, view, session):
        """Counts what decides the binding of a call."""
        bound = binding(view, session)
        if bound is not None and view.shows(session, "prefix"):
            own, asked = view.value(bound, "prefix"), view.value(session, "prefix")
            self.tally["bound by a prefix"] += 1
            self.tally["bound by a shorter prefix"] += own[0] < asked[0]
        if bound is not None:
            older = [gx for gx in view.all_live("gx") if matches(view, session, gx) and view.shows(gx, "address")
                     and view.shows(bound, "address") and view.tag(gx, "address")[1:] > view.tag(bound, "address")[1:]]
            self.tally["prefix decides"] += bool(older)

    def restart(self, site=None):
        """A site begins anew, but in some scripts none does."""
        if not self.steady:
            super().restart(site)

    # ---- several lines

    def request(self):
        """A credit control request of any kind."""
        self.msg(self.draw.ccr().octets())

    def call(self):
        """A call, mostly at an address of a live session of the site, and its push."""
        site = self.draw.random.randrange(self.count)
        live = self.live(site, "gx")
        where = self.draw.where(self.world.sites[site].view(), live[0]) if live else ADDRESSES[0]
        self.msg(self.draw.one_flow(self.draw.one(AF_SESSIONS), where, 1, ()).octets(), str(site))
        self.push(str(site))

    def hang_up(self):
        """A call that is live ends, and its push."""
        site = self.draw.random.randrange(self.count)
        for session in self.live(site, "af")[:1]:
            self.msg(self.draw.str_(session.id).octets(), str(site))
            self.push(str(site))

    def change(self):
        """An update of a live session, with any number and any access point."""
        site = self.draw.random.randrange(self.count)
        for session in self.live(site, "gx")[:1]:
            self.msg(self.draw.ccr(2, session.id).octets(), str(site))

    def twins(self):
        """Two sites grant the same session under equal counters, and one learns of both."""
        one, gateway = self.draw.random.randrange(self.count), self.draw.one(GX_SESSIONS)
        for site in sorted({one, (one + 1) % self.count}):
            self.restart(str(site))
            self.attach(str(site), self.draw.one(ADDRESSES), gateway)
            self.letter(str(site), str(one))
            self.merge(str(one), self.newest())
        self.show(str(one))

    def late_change(self):
        """An update that gives another access point than the session has, and is older than what gave that."""
        site, gateway = str(self.draw.random.randrange(self.count)), self.draw.one(GX_SESSIONS)
        for kind, number in ((1, 3), (2, self.draw.one([1, 2, 4]))):
            self.msg(self.draw.ccr(kind, gateway, number).octets(), site)

    def old_letter(self):
        """A site begins anew, and takes a letter that was made before."""
        if self.world.letters:
            site, letter = self.draw.random.randrange(self.count), self.draw.random.randrange(len(self.world.letters))
            self.restart(str(site))
            self.merge(str(site), str(letter))

    def repeat(self):
        """A site takes a letter, and others, and it again."""
        if self.world.letters:
            site, letters = str(self.draw.random.randrange(self.count)), len(self.world.letters)
            one = str(self.draw.random.randrange(letters))
            for letter in (one, str(self.draw.random.randrange(letters)), one):
                self.merge(site, letter)

    def reorder(self):
        """A site takes two letters of another, the later one first."""
        one = self.draw.random.randrange(self.count)
        peer = str((one + 1) % self.count)
        first_one = len(self.world.letters)
        for _ in range(2):
            self.msg(self.draw.ccr(1, number=0).octets(), str(one))
            self.letter(str(one), peer)
        for letter in (first_one + 1, first_one):
            self.merge(peer, str(letter))

    def all_letters(self):
        """Each site makes a letter for each, and each takes those for it, the first of them as it comes."""
        first_one = len(self.world.letters)
        for peer in range(self.count):
            for site in range(self.count):
                self.letter(str(site), str(peer))
        for peer in range(self.count):
            for at in range(self.count):
                self.merge(str(peer), str(first_one + self.count * peer + (peer + at) % self.count))

    def step(self):
        """The next line, or lines."""
        steps = {self.request: 24, self.any_message: 16, self.aimed_message: 12, self.call: 16, self.hang_up: 10,
                 self.change: 12, self.push: 8, self.letter: 14, self.merge: 12, self.ack: 5, self.exchange: 14,
                 self.repeat: 8, self.restart: 2, self.show: 3, self.twins: 6, self.reorder: 3, self.half_known: 3,
                 self.late_ack: 4, self.detach: 6, self.abandoned: 9, self.abort: 4, self.rivals: 8, self.changed_call: 3, self.late_change: 9, self.old_letter: 4}
        if self.count == 1:
            for several in (self.twins, self.half_known, self.late_ack, self.abandoned):
                del steps[several]
        self.draw.random.choices(list(steps), list(steps.values()))[0]()

    def judge_end(self):
        """Sites of which none began anew show the same, once each took the letters of each."""
        if all(site.epoch == 1 for site in self.world.sites):
            shown = [site.show() for site in self.world.sites]
            assert all(one == shown[0] for one in shown), f"the sites of script {self.seed} differ"
            self.tally["all letters"] += 1

    def run(self, length):
        """Draws a script of about so many lines; it ends by showing each site."""
        for _ in range(2):
            self.attach(str(self.draw.random.randrange(self.count)), self.draw.one(ADDRESSES))
        while len(self.lines) - self.beside < length:
            self.turn()
        if self.ends:
            self.all_letters()
            for site in range(self.count):
                self.push(str(site))
                self.abort(str(site))
            self.all_letters()
            self.judge_end()
        for site in range(self.count):
            self.show(str(site))
        used = {letter for taken in self.merged.values() for letter in taken}
        self.tally["lost"] += len(self.world.letters) - len(used)


def is_of_host(frame):
    """Whether a frame is no request of a gateway or an application function with another host."""
    header = read_header(frame)
    host = {(CCR, GX): HOST, (AAR, RX): FUNCTION}.get((header.command, header.application))
    if host is None:
        return True
    try:
        return first(read_request(frame).values, "host") == host
    except Refused:
        return True


def is_late(site, octets):
    """Whether a site grants an update whose access point isn't the one that the session then shows."""
    late = False
    for frame in cut_stream(octets)[0]:
        site.serve(frame)
        try:
            values = read_request(frame).values
        except Refused:
            continue
        if read_header(frame).command == CCR and first(values, "kind") == 2 and first(values, "apn"):
            view = site.view()
            shown = [view.value(session, "apn") for session in view.all_live("gx") if session.id == first(values, "session")]
            late = late or shown not in ([], [first(values, "apn")])
    return late


def main(folder):
    """Writes the scripts of each file."""
    tally = Tally()
    for name, (seeds, apns) in FILES.items():
        tables = read_tables(os.path.join(folder, f"{name}.toml"))
        with open(os.path.join(folder, f"random_worlds_{name}.scripts"), "w", encoding="ascii") as file:
            file.write("# Drawn by oracle/random_worlds.py. Each script begins at its line `sites N`.\n")
            for seed in seeds:
                script = RandomWorld(tables, seed, tally, apns)
                script.run(120 if seed == LONG else 20 if script.many else 15)
                file.write("\n".join(script.lines) + "\n")
    tally.tell()
    tally.demand(LEAST)


if __name__ == "__main__":
    main(*sys.argv[1:])
