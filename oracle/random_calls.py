#!/usr/bin/env python3
"""Writes random scripts of calls, and what a plain model of sites says that they print.

`random_calls.py TABLES FOLDER EXPECTED` writes the scripts `random_calls_NN.script` into the folder and what all print,
each run behind a line with its names, into the file EXPECTED. It prints how often each thing was reached, and fails
where a run of the gate would reach too little.
"""
import os
import random
import sys

from edge_messages import edges
from plain_facts import read_tables, told
from plain_letters import Acknowledged, Range, taken_of
from plain_requests import cut_stream
from plain_site import World, printed
from random_messages import ADDRESSES, AF_SESSIONS, GX_SESSIONS, USER, Draw, Part
from tally import Tally, aimed

SCRIPTS = 12
FIRST_OF_REFUSALS = 9
NOWHERE = ["4", "16", "255", "4294967296", "99999999999999999999999"]
BY_CAUSE = (5011, 3008, 5014, 5009, 5005, 5004)
LEAST = {
    **{f"{name} 2001": 5 for name in ("CCR-I", "CCR-U", "CCR-T", "AAR", "STR", "CER", "DWR", "DPR")},
    **{f"{name} unread {code}": 1 for name in ("CCR", "AAR") for code in BY_CAUSE},
    **{f"{name} unread {code}": 1 for name in ("STR", "CER") for code in (5009, 5005, 5004)},
    **{f"{name} unread {code}": 1 for name in ("DWR", "DPR") for code in (5005, 5004)},
    **{f"{name} 5002": 2 for name in ("CCR-I", "CCR-U", "CCR-T", "AAR", "STR")},
    **{f"{name} 5003": 2 for name in ("CCR-I", "CCR-U")},
    "AAR unread 5061": 3, "AAR unread 5062": 3, "AAR 5005": 2, "AAR 5063": 3, "AAR 5065": 3, "CCR-I 5140": 3,
    "CER 5010": 2,
    "other unread 3007": 3, "other unread 3001": 3, "other unread 5011": 1, "no answer": 5,
    "frame ShortLength": 2, "frame OddLength": 2, "frame TooLong": 2, "frame Cut": 2, "two messages": 5,
    "push installs": 5, "push removes": 5, "push does both": 3, "push none": 10, "push leaves more": 3,
    "answer leaves more": 1, "CCA installs": 5, "CCA removes": 2, "CCA without quality": 2,
    "gx live": 20, "gx ended": 5, "gx partial": 3, "af bound": 10, "af unbound": 5, "af partial": 3, "af ended": 5,
    "gx by address": 20, "gx by prefix": 5, "gx by both": 10, "aborts": 8, "abort none": 8, "af unbound aborted": 8, "af bound aborted": 1,
    "retold": 15, "retell none": 8,
    "rule": 30, "told": 30, "escaped": 5, "merge changes": 20, "merge changes nothing": 10, "own letter": 1,
    "restart": 8, "old letter after a restart": 4, "equal stamps": 3,
    "ack": 20, "range": 10, "range of nothing": 2, "range past the cursor": 3, "late ack": 3,
    "refused NoSuchSite": 5, "refused NoSuchLetter": 3,
}


class RandomScript:
    """A script that is drawn line by line, with what it prints."""

    least = LEAST

    def __init__(self, tables, seed, tally):
        self.seed, self.draw, self.apart, self.tally = seed, Draw(seed), random.Random(f"apart {seed}"), tally
        self.refusals, self.beside = seed >= FIRST_OF_REFUSALS, 0
        self.count = 1 if self.refusals else (3, 1, 4, 2)[seed % 4]
        self.world = World(tables, self.count)
        self.lines = ["# Drawn by oracle/random_calls.py.", f"sites {self.count}"]
        self.prints = [f"sites {self.count}"]
        self.began = [0] * self.count

    def say(self, line):
        """A line, and what it prints."""
        printed = self.world.obey(line)
        self.lines.append(line)
        self.prints += printed
        self.tally["refused NoSuchSite"] += printed == ["refused NoSuchSite"]
        self.tally["refused NoSuchLetter"] += printed == ["refused NoSuchLetter"]
        self.tally["escaped"] += any("\\x" in one for one in printed)
        return printed

    def site(self):
        """A site, seldom one that isn't there."""
        return self.draw.one(NOWHERE) if self.draw.chance(2) else str(self.draw.random.randrange(self.count))

    # ---- lines

    def msg(self, octets, site=None):
        """A site is given bytes."""
        printed = self.say(f"msg {site or self.site()} {octets.hex()}")
        if printed == ["refused NoSuchSite"]:
            return
        frames, left = cut_stream(octets)
        self.tally["two messages"] += len(frames) > 1
        self.tally[f"frame {left}"] += left is not None
        for frame, line in zip(frames, printed):
            answer = None if line == "no answer" else bytes.fromhex(line.removeprefix("answer "))
            self.tally.exchange(frame, answer)
            self.tally_cca(frame, answer or b"")

    def tally_cca(self, frame, answer):
        """Counts what an answer to a credit control request has."""
        if answer[5:12] == b"\0\1\x10\1\0\0\x16" and b"\0\0\1\x0c\x40\0\0\x0c\0\0\x07\xd1" in answer:
            install, remove = (code.to_bytes(4, "big") + b"\xc0" in answer for code in (1001, 1002))
            self.tally["CCA installs"] += install
            self.tally["CCA removes"] += remove
            self.tally["CCA without quality"] += (1049).to_bytes(4, "big") + b"\x80" not in answer
            entries = sum(answer.count(code.to_bytes(4, "big") + b"\xc0") for code in (1005,))
            self.tally["answer leaves more"] += entries == 40

    def push(self, site=None):
        """A site pushes."""
        words = self.say(f"push {site or self.site()}")[0].split(" ")
        removed, installed = (sum(word.startswith(sign) for word in words[2:]) for sign in "-+")
        if words[0] == "push":
            how = {(True, True): "does both", (True, False): "removes", (False, True): "installs"}
            self.tally["push " + how[removed > 0, installed > 0]] += 1
            self.tally["push leaves more"] += removed + installed == 40
        self.tally["push none"] += words[0] == "none"

    def abort(self, site=None):
        """A site aborts."""
        word = self.say(f"abort {site or self.site()}")[0].split(" ")[0]
        self.tally["abort none" if word == "none" else "aborts"] += word != "refused"

    def aborts(self, site=None):
        """A site aborts until nothing is left, three times at most, and is shown."""
        site = site or self.site()
        for _ in range(3):
            self.abort(site)
            if self.prints[-1] == "none":
                break
        self.show(site)

    def retell(self):
        """A site counts what a gateway was told as not there, mostly one that was told a rule, and perhaps pushes then: by draws of
        their own, so that all else is drawn as it would be without."""
        site = self.apart.randrange(self.count)
        view = self.world.sites[site].view()
        some = [one for one in view.all_live("gx") if told(view, one)] if self.apart.random() < 0.8 else []
        session = self.apart.choice(some).id if some else self.apart.choice(GX_SESSIONS)
        printed_then = self.say(f"retell {site} {printed(session)}")[0]
        self.tally["retell none" if printed_then == "none" else "retold"] += 1
        if self.apart.random() < 0.7:
            self.push(str(site))

    def abandoned(self):
        """A call at one site, whose gateway's session ends at another; one of them aborts it, and it is perhaps bound again."""
        one = str(self.draw.random.randrange(self.count))
        two, call = self.site(), self.draw.one(AF_SESSIONS)
        for session in self.live(one, "gx")[:1]:
            where = self.draw.where(self.world.sites[int(one)].view(), session)
            self.msg(self.draw.one_flow(call, where, 1, ()).octets(), one)
            self.letter(one, two)
            self.merge(two, self.newest() if self.world.letters else None)
            self.msg(self.draw.ccr(3, session.id).octets(), two)
            self.letter(two, one)
            self.merge(one, self.newest() if self.world.letters else None)
            self.aborts(self.draw.one([one, one, two]))
            again = self.live(one, "gx")[:1] or [session]
            where = self.draw.where(self.world.sites[int(one)].view(), again[0]) if again != [session] else []
            self.msg(self.draw.one_flow(call, where, 1, ()).octets(), one)
            self.show(one)

    def letter(self, site=None, peer=None):
        """A site makes a letter for another."""
        if self.say(f"letter {site or self.site()} {peer or self.site()}") != ["refused NoSuchSite"]:
            letter = self.world.letters[-1]
            self.tally["range"] += isinstance(letter, Range)
            self.tally["range of nothing"] += isinstance(letter, Range) and not letter.operations

    def ack(self, site=None, maker=None):
        """A site tells another what it took of it."""
        self.tally["ack"] += self.say(f"ack {site or self.site()} {maker or self.site()}") != ["refused NoSuchSite"]

    def merge(self, site=None, letter=None):
        """A site takes a letter, mostly one of the last."""
        site, made = site or self.site(), len(self.world.letters)
        pool = range(max(0, made - 5), made) if self.draw.chance(70) else range(made + 1)
        if letter is None:
            letter = str(self.draw.one(pool)) if pool and not self.draw.chance(8) else self.draw.one(NOWHERE)
        before = self.operations(site)
        self.tally_late(site, int(letter))
        if self.say(f"merge {site} {letter}") == ["merged"]:
            self.tally_merge(int(site), int(letter), before)

    def tally_late(self, site, number):
        """Counts letters that come too late, or too soon."""
        if int(site) >= self.count or number >= len(self.world.letters):
            return
        letter, taken = self.world.letters[number], self.world.sites[int(site)].letters
        if isinstance(letter, Range):
            epoch, count = taken_of(taken, letter.sender)
            known = count if epoch == letter.epoch else 0
            self.tally["range past the cursor"] += epoch <= letter.epoch and letter.first > known
        if isinstance(letter, Acknowledged) and letter.maker == int(site):
            self.tally["late ack"] += letter.maker_epoch != self.world.sites[int(site)].epoch

    def operations(self, site):
        """The operations that a site holds."""
        return list(self.world.sites[int(site)].operations) if int(site) < self.count else []

    def tally_merge(self, site, letter, before):
        """Counts what a letter brought."""
        now = self.operations(site)
        self.tally["merge changes" if len(now) > len(before) else "merge changes nothing"] += 1
        self.tally["own letter"] += any(operation.site == site for operation in self.world.letters[letter].operations)
        old = letter < self.began[site] and bool(self.world.letters[letter].operations)
        self.tally["old letter after a restart"] += old and len(now) > len(before)
        stamps = {(operation.counter, operation.site) for operation in now}
        self.tally["equal stamps"] += len(now) > len(before) and len(stamps) < len(now)

    def restart(self, site=None):
        """A site begins anew."""
        site = site or self.site()
        if self.say(f"restart {site}") != ["refused NoSuchSite"]:
            self.tally["restart"] += 1
            self.began[int(site)] = len(self.world.letters)

    def show(self, site=None):
        """A site is shown."""
        for line in self.say(f"show {site or self.site()}"):
            words = line.split(" ")
            self.tally[f"{words[0]} {words[2]}" if words[0] in ("gx", "af") else words[0]] += 1
            if words[0] == "gx" and words[2] == "live":
                self.tally[f"gx by {'both' if ',' in words[3] else 'prefix' if '/' in words[3] else 'address'}"] += 1
            if words[0] == "af" and words[-1] == "aborted":
                self.tally[f"af {words[2]} aborted"] += 1

    # ---- several lines

    def any_message(self):
        """A message, seldom two, seldom with an end that is none."""
        octets = self.draw.message() + (self.draw.message() if self.draw.chance(9) else b"")
        self.msg(octets + (self.draw.bad_end() if self.draw.chance(9) else b""))

    def refused_message(self):
        """A message that is mostly refused before what is held is looked at."""
        self.msg(self.draw.refused() + (self.draw.bad_end() if self.draw.chance(6) else b""))

    def aimed_message(self):
        """A message that is answered as too few were so far."""
        site = self.draw.one(self.world.sites)
        self.msg(aimed(self.draw, site, self.tally, self.least), str(site.number))

    def pushes(self):
        """A site pushes until nothing is left, three times at most."""
        site = self.site()
        for _ in range(3):
            self.push(site)
            if self.prints[-1] == "none":
                return

    def newest(self):
        """The letter that was made last, or the number of the first where none was."""
        return str(max(len(self.world.letters), 1) - 1)

    def exchange(self):
        """A site tells another what it made, which is mostly acknowledged."""
        one, two = self.site(), self.site()
        self.letter(one, two)
        self.merge(two, self.newest() if self.world.letters else None)
        if self.draw.chance(60):
            self.ack(two, one)
            self.merge(one, self.newest() if self.world.letters else None)

    def second_life(self):
        """A site begins anew and counts the same operations again, otherwise, and then learns what it told."""
        site, letters = str(self.draw.random.randrange(self.count)), []
        sessions = self.draw.random.sample(GX_SESSIONS, 2)
        calls = [self.draw.one(AF_SESSIONS), self.draw.one(AF_SESSIONS)]
        for gateway, call in zip(self.draw.one([sessions, sessions[:1] * 2]), self.draw.one([calls, calls[:1] * 2])):
            self.restart(site)
            self.attach(site, ADDRESSES[0], gateway)
            self.msg(self.draw.one_flow(call, ADDRESSES[0], 1, ()).octets(), site)
            self.letter(site)
            letters.append(self.newest())
        self.merge(site, letters[0])
        self.show(site)
        self.push(site)

    def attach(self, site, address, gateway=None):
        """An initial request of a session at an address, mostly granted. It gives the session's id."""
        gateway = gateway or self.draw.one(GX_SESSIONS)
        request = self.draw.ccr(1, gateway, self.draw.one([0, 0, 1]))
        for part in request.parts:
            part.value = address if part.code == 8 else part.value
        self.msg(request.octets(), site)
        return gateway

    def many_flows(self):
        """A call of many flows, whose gateway is told of them, and later that they are gone."""
        site, session = str(self.draw.random.randrange(self.count)), self.draw.one(AF_SESSIONS)
        address = self.draw.one(ADDRESSES)
        gateway = self.attach(site, address)
        call = self.draw.many_flows(session, address, self.draw.one([1, 2]), self.draw.one([41, 45, 50]))
        self.msg(call.octets(), site)
        if self.tally["answer leaves more"] < LEAST["answer leaves more"]:
            self.msg(self.draw.ccr(2, gateway).octets(), site)
        for _ in range(3):
            self.push(site)
        self.msg((self.draw.str_ if self.draw.chance(92) else self.draw.aar)(session).octets(), site)
        self.push(site)
        self.push(site)

    def changed_call(self):
        """A call that is described anew and removed in part, of which its gateway is told, and then another gateway."""
        site, session = str(self.draw.random.randrange(self.count)), self.draw.one(AF_SESSIONS)
        self.attach(site, ADDRESSES[0])
        one = self.draw.random.randrange(100)
        for component, removed in self.draw.one([((one, ()), (one, ())), ((one, ()), (one + 1, (one,)))]):
            self.msg(self.draw.one_flow(session, ADDRESSES[0], component, removed).octets(), site)
            self.push(site)
        if self.draw.chance(30):
            self.msg(self.draw.flow_removed(session, one).octets(), site)
        self.attach(site, ADDRESSES[0])
        self.push(site)

    def meeting(self):
        """Two sites that begin anew grant sessions of one address under equal counters, and one learns of both."""
        one = self.draw.random.randrange(self.count)
        two = (one + 1) % self.count
        gateways = sorted(self.draw.random.sample(GX_SESSIONS, 2), reverse=self.draw.chance(70))
        for site, gateway in zip(sorted({one, two}), gateways):
            self.restart(str(site))
            self.attach(str(site), ADDRESSES[0], gateway)
            self.letter(str(site))
        self.merge(str(one), self.newest())
        self.merge(str(one), str(max(0, len(self.world.letters) - 2)))
        self.msg(self.draw.one_flow(self.draw.one(AF_SESSIONS), ADDRESSES[0], 1, ()).octets(), str(one))
        self.show(str(one))

    def rivals(self):
        """Two sessions of gateways whose prefixes cover one another, and a call that both cover; the first may say its prefix anew."""
        site, call = str(self.draw.random.randrange(self.count)), self.draw.one(AF_SESSIONS)
        gateways, bits = self.draw.random.sample(GX_SESSIONS, 2), self.draw.one([(64, 56), (61, 64), (64, 64), (0, 56), (61, 32), (32, 64)])
        has_address = self.draw.one([(), ADDRESSES[:1]])
        for gateway, one in zip(gateways, bits):
            self.msg(self.draw.at_prefix(1, gateway, 0, one, has_address).octets(), site)
        if self.draw.chance(60):
            self.msg(self.draw.at_prefix(2, gateways[0], 1, bits[0]).octets(), site)
        where = [self.draw.within(64, USER + bytes(8))] + self.draw.some(50 if has_address else 0, Part(8, ADDRESSES[0]))
        self.msg(self.draw.one_flow(call, where, 1, ()).octets(), site)
        self.show(site)
        self.push(site)

    def late_update(self):
        """A session's update at another site than its home, with a CC-Request-Number below, as or above the last."""
        one = str(self.draw.random.randrange(self.count))
        two, gateway = self.site(), self.draw.one(GX_SESSIONS)
        self.msg(self.draw.ccr(1, gateway, 3).octets(), one)
        self.letter(one, two)
        self.merge(two, self.newest() if self.world.letters else None)
        self.msg(self.draw.ccr(2, gateway, self.draw.one([2, 2, 3, 4])).octets(), two)
        self.letter(two, one)
        self.merge(one, self.newest() if self.world.letters else None)
        for site in (one, two):
            self.show(site)

    def tell(self, site, peer):
        """A site's letter for a peer is taken and acknowledged, and the acknowledgement taken."""
        self.letter(site, peer)
        self.merge(peer, self.newest())
        self.ack(peer, site)
        self.merge(site, self.newest())

    def late_ack(self):
        """A site begins anew before it learns what another took of it, and writes to the other."""
        one = self.draw.random.randrange(self.count)
        two = str((one + 1) % self.count)
        self.letter(str(one), two)
        self.merge(two, self.newest())
        self.ack(two, str(one))
        self.restart(str(one))
        self.merge(str(one), self.newest())
        self.letter(str(one), two)
        self.merge(two, self.newest())

    def half_known(self):
        """A site begins anew and learns only how sessions were changed at another."""
        one = self.draw.random.randrange(self.count)
        two, session = str((one + 1) % self.count), self.draw.one(AF_SESSIONS)
        gateway = self.attach(str(one), ADDRESSES[0])
        self.msg(self.draw.one_flow(session, ADDRESSES[0], 1, ()).octets(), str(one))
        self.letter(str(one), two)
        self.merge(two, self.newest())
        self.msg(self.draw.ccr(2, gateway).octets(), two)
        self.tell(two, str(one))
        self.restart(str(one))
        self.msg(self.draw.ccr(2, gateway).octets(), two)
        self.msg(self.draw.one_flow(session, [], 2, ()).octets(), two)
        self.letter(two, str(one))
        self.merge(str(one), self.newest())
        self.show(str(one))
        for request in (self.draw.str_(session), self.draw.ccr(2, gateway), self.draw.ccr(3, gateway)):
            self.msg(request.octets(), str(one))

    def detach(self):
        """A gateway's session ends whose calls may then be bound to none; then a call ends, and is described again."""
        site, call = str(self.draw.random.randrange(self.count)), self.draw.one(AF_SESSIONS)
        for session in self.live(site, "gx")[:1]:
            where = self.draw.where(self.world.sites[int(site)].view(), session)
            self.msg(self.draw.one_flow(call, where, 1, ()).octets(), site)
            self.msg(self.draw.ccr(3, session.id).octets(), site)
            self.msg(self.draw.ccr(self.draw.one([1, 1, 2, 3]), session.id).octets(), site)
        self.push(site)
        self.show(site)
        self.aborts(site)
        self.msg(self.draw.str_(call).octets(), site)
        if self.draw.chance(40):
            self.msg(self.draw.aar(call).octets(), site)

    def live(self, site, kind):
        """The live sessions of a kind at a site, in any order."""
        live = self.world.sites[int(site)].view().all_live(kind)
        return self.draw.random.sample(live, len(live))

    def step(self):
        """The next line, or lines."""
        steps = {self.any_message: 370, self.aimed_message: 100, self.push: 70, self.pushes: 45, self.letter: 30,
                 self.ack: 10, self.merge: 60, self.exchange: 60, self.restart: 4, self.show: 50, self.second_life: 16,
                 self.many_flows: 4, self.changed_call: 30, self.half_known: 12, self.detach: 14, self.late_update: 6, self.late_ack: 12,
                 self.meeting: 8, self.aborts: 12, self.abandoned: 30, self.rivals: 16}
        if self.refusals:
            steps = {self.refused_message: 85, self.aimed_message: 10, self.push: 2, self.show: 3}
        self.draw.random.choices(list(steps), list(steps.values()))[0]()

    def turn(self):
        """A step, now and then with a retelling behind it."""
        self.step()
        if not self.refusals and self.apart.random() < 0.1:
            drawn = len(self.lines)
            self.retell()
            self.beside += len(self.lines) - drawn

    def run(self, length):
        """Draws a script of about so many lines; it ends by showing each site."""
        for _ in range(3):
            self.msg(self.draw.ccr(1).octets())
        if not self.refusals:
            (self.half_known, self.many_flows, self.detach)[self.seed % 3]()
            (self.meeting, self.meeting, self.changed_call)[self.seed % 3]()
        for octets in edges() if self.seed == FIRST_OF_REFUSALS else []:
            self.msg(octets)
        while len(self.lines) - self.beside < length:
            self.turn()
        for site in range(self.count):
            self.show(str(site))


def main(tables_path, folder, expected):
    """Writes all scripts and what they print."""
    tables, tally, prints = read_tables(tables_path), Tally(), []
    for seed in range(SCRIPTS):
        name = f"random_calls_{seed:02}.script"
        script = RandomScript(tables, seed, tally)
        script.run(64 if script.refusals else 70 + 6 * seed)
        with open(os.path.join(folder, name), "w", encoding="ascii") as file:
            file.write("\n".join(script.lines) + "\n")
        prints += [f"# {os.path.basename(tables_path)} {name}"] + script.prints
    with open(expected, "w", encoding="ascii") as file:
        file.write("\n".join(prints) + "\n")
    tally.tell()
    tally.demand(LEAST)


if __name__ == "__main__":
    main(*sys.argv[1:])
