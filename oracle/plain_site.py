#!/usr/bin/env python3
"""A plain model of sites, worlds of sites and streams, apart from the product.

A site is the list of the operations that it took, with what it made itself; whatever it answers is found anew from all
their facts. `plain_site.py TABLES SCRIPT` prints what a script without bad lines has to print.
"""
import re
import sys
from typing import NamedTuple

from plain_answers import SUCCESS, asr, base_answer, cca, rar, refusal, rx_answer
from plain_facts import (ABORTED, REMOVED, Fact, Session, Tag, View, apn_row, binding, difference, media_row, read_tables,
                         rules, told)
from plain_letters import acknowledged, written
from plain_requests import (AAR, CCR, CER, DPR, GX, RELAY, RX, STR, Refused, cut_stream, first, first_session_id,
                            read_header, read_request, subscribers)

INITIAL, TERMINATION = 1, 3
MOST_ENTRIES = 40


class Operation(NamedTuple):
    """What one accepted request, push, abort or retelling added: its stamp, facts on one session, and a gateway's
    CC-Request-Number."""
    counter: int
    site: int
    facts: tuple
    number: int = 0


# ---- the facts of requests

def ending(session):
    """The fact that a session ended."""
    return [Fact(session, ())]


def session_facts(session, values, last, tag):
    """The facts of the fields of a session that a request gives, whose kind is `last`."""
    named = [(field, first(values, field)) for field in ("host", "realm", "address", "prefix", "apn")]
    named += [("last", last), ("subscribers", subscribers(values))]
    return [Fact(session, (field,), tag, value) for field, value in named if value is not None]


def is_reached(values):
    """Whether a request says where its user is reached."""
    return first(values, "address") is not None or first(values, "prefix") is not None


def ccr_fields(session, values, tag):
    """The facts of an initial credit control request or an update (TS 29.212, 4.5.1)."""
    return session_facts(session, values, first(values, "kind"), tag)


def flow_facts(session, component, flow, tag):
    """The facts of a described flow, or that it is removed."""
    place = (component, first(flow, "number"))
    if first(flow, "status") == REMOVED:
        return [Fact(session, place)]
    named = [("filters", tuple(flow["filters"]) or None)]
    named += [(field, first(flow, field)) for field in ("usage", "status", "up", "down")]
    return [Fact(session, place + (field,), tag, value) for field, value in named if value is not None]


def component_facts(session, component, tag):
    """The facts of a described component and of its flows, or that it is removed."""
    number = first(component, "number")
    if first(component, "status") == REMOVED:
        return [Fact(session, (number,))]
    named = [(field, first(component, field)) for field in ("media", "status", "up", "down")]
    facts = [Fact(session, (number, field), tag, value) for field, value in named if value is not None]
    return facts + [fact for flow in component["flows"] for fact in flow_facts(session, number, flow, tag)]


def aar_facts(session, values, tag):
    """The facts of an AA request (TS 29.214, 4.4.1 and 4.4.2)."""
    facts = session_facts(session, values, 0, tag)
    return facts + [fact for one in values["components"] for fact in component_facts(session, one, tag)]


def told_facts(session, entries, tag):
    """The facts that the gateway of a session was told so."""
    return [Fact(session, ("told", name), tag, rule) for name, rule in entries]


# ---- a site

class Site:
    """A site of a number, which took and made nothing yet, and how it reads requests."""

    def __init__(self, tables, number, epoch=1, read=read_request):
        self.tables, self.number, self.epoch, self.read = tables, number, epoch, read
        self.operations, self.log, self.letters = [], [], []

    def copy(self):
        """A site that took and made the same."""
        site = Site(self.tables, self.number, self.epoch, self.read)
        site.operations, site.log, site.letters = list(self.operations), list(self.log), list(self.letters)
        return site

    def clock(self):
        """The greatest counter of the operations taken."""
        return max((operation.counter for operation in self.operations), default=0)

    def view(self, more=()):
        """What the site's facts show, with more of them."""
        return View([fact for operation in self.operations for fact in operation.facts] + list(more))

    def tag(self, number=0):
        """The tag of the facts of the next operation."""
        return Tag(number, self.clock() + 1, self.number)

    def add(self, facts, number=0):
        """Makes an operation of facts."""
        operation = Operation(self.clock() + 1, self.number, tuple(facts), number)
        self.take([operation])
        self.log.append(operation)

    def take(self, operations):
        """Takes operations; one that was taken changes nothing."""
        self.operations += [operation for operation in operations if operation not in self.operations]

    def serve(self, frame):
        """The answer to a frame, None if it gets none."""
        header = read_header(frame)
        if not header.is_request:
            return None
        try:
            values = self.read(frame).values
        except Refused as refused:
            return refusal(self.number, header, refused.code, first_session_id(frame))
        if header.command == CCR:
            return self.serve_ccr(header, values)
        if header.command in (AAR, STR):
            return self.serve_rx(header, values)
        return base_answer(self.number, header, capabilities(values) if header.command == CER else SUCCESS)

    def judge_ccr(self, session, values):
        """Refuses a credit control request by what is held."""
        view, kind, apn = self.view(), first(values, "kind"), first(values, "apn")
        if view.ended(session) if kind == INITIAL else not view.live(session):
            raise Refused(5002)
        if kind == INITIAL and (not is_reached(values) or None in (apn, subscribers(values))):
            raise Refused(5140)
        if kind != TERMINATION and apn is not None and apn_row(self.tables, apn) is None:
            raise Refused(5003)

    def serve_ccr(self, header, values):
        """Serves a credit control request that was read (TS 29.212, 4.5.1 to 4.5.7)."""
        session = Session("gx", first(values, "session"))
        try:
            self.judge_ccr(session, values)
        except Refused as refused:
            return cca(self.number, header, values, refused.code)
        if first(values, "kind") == TERMINATION:
            self.add(ending(session), first(values, "number"))
            return cca(self.number, header, values, SUCCESS)
        fields = ccr_fields(session, values, self.tag(first(values, "number")))
        view = self.view(fields)
        entries = difference(self.tables, view, session)[:MOST_ENTRIES]
        self.add(fields + told_facts(session, entries, self.tag()), first(values, "number"))
        default = apn_row(self.tables, view.value(session, "apn")).get("default")
        return cca(self.number, header, values, SUCCESS, entries, default)

    def judge_aar(self, session, values):
        """Refuses an AA request by what is held and what it describes."""
        view = self.view()
        if view.ended(session):
            raise Refused(5002)
        if not view.live(session) and not is_reached(values):
            raise Refused(5005)
        kept = [one for one in values["components"] if first(one, "status") != REMOVED]
        media = [first(one, "media") for one in kept if first(one, "media") is not None]
        if any(media_row(self.tables, media_type) is None for media_type in media):
            raise Refused(5063)
        if binding(self.view(aar_facts(session, values, self.tag())), session) is None:
            raise Refused(5065)

    def serve_rx(self, header, values):
        """Serves an AA or a session termination request that was read (TS 29.214, 4.4)."""
        session = Session("af", first(values, "session"))
        try:
            if header.command == AAR:
                self.judge_aar(session, values)
                self.add(aar_facts(session, values, self.tag()))
            elif self.view().live(session):
                self.add(ending(session))
            else:
                raise Refused(5002)
        except Refused as refused:
            return rx_answer(self.number, header, values, refused.code)
        return rx_answer(self.number, header, values, SUCCESS)

    def push(self):
        """Tells the gateway of the first session that is due: the session with its entries, None if none is due."""
        view = self.view()
        for session in view.all_live("gx"):
            entries = difference(self.tables, view, session)[:MOST_ENTRIES]
            if view.home(session) == self.number and entries:
                self.add(told_facts(session, entries, self.tag()))
                return session, entries
        return None

    def is_abandoned(self, view, session):
        """Whether a live session of an application function that this site served last is bound to none and not aborted yet."""
        known = all(view.shows(session, field) for field in ("host", "realm", "last"))
        return (known and view.home(session) == self.number and not view.aborted(session)
                and binding(view, session) is None)

    def abort(self, host=None):
        """Asks the application function, of a host or of any, to end the first session that lost its gateway's (TS 29.214,
        4.4.6.1): the session, None if there is none."""
        view = self.view()
        for session in view.all_live("af"):
            if self.is_abandoned(view, session) and host in (None, view.value(session, "host")):
                self.add([Fact(session, ABORTED)])
                return session
        return None

    def retell(self, name):
        """Counts what the gateway of a live session was told as not there (TS 29.212, 4.5.2): whether it was told anything."""
        session, view = Session("gx", name), self.view()
        names = sorted(told(view, session)) if view.live(session) else []
        if names:
            self.add(told_facts(session, [(name, None) for name in names], self.tag()))
        return bool(names)

    def show(self):
        """What a script shows of a site."""
        view = self.view()
        lines = [f"clock {self.clock()}"]
        for session in view.sessions:
            lines += show_gx(self.tables, view, session) if session.kind == "gx" else []
        lines += [show_af(view, session) for session in view.sessions if session.kind == "af"]
        return lines + ["end"]


def capabilities(values):
    """The result of a capabilities exchange: whether Gx, Rx or a relay is advertised (RFC 6733, 5.3)."""
    advertised = values["application"] + [number for one in values["vendor"] for number in one["application"]]
    return SUCCESS if {GX, RX, RELAY} & set(advertised) else 5010


def converse(site, stream):
    """Answers a stream: all that is written, and how it ends."""
    frames, left = cut_stream(stream)
    written = b""
    for frame in frames:
        written += site.serve(frame) or b""
        if disconnects(frame):
            return written, "disconnected"
    return written, {None: "closed", "Cut": "cut"}.get(left, f"frame {left}")


def disconnects(frame):
    """Whether a frame is a Disconnect-Peer-Request that is granted (RFC 6733, 5.4)."""
    try:
        return read_header(frame).is_request and read_request(frame).command == DPR
    except Refused:
        return False


# ---- what a script prints

def printed(octets):
    """A text of any bytes as a script prints it."""
    return "".join(chr(octet) if 0x21 <= octet <= 0x7E and octet != 0x5C else f"\\x{octet:02x}" for octet in octets)


def unprinted(word):
    """The text that a script prints so."""
    return re.sub(rb"\\x([0-9a-f]{2})", lambda found: bytes.fromhex(found[1].decode()), word.encode())


def state(view, session):
    """Whether a session is live, ended or neither."""
    return "ended" if view.ended(session) else "live" if view.live(session) else "partial"


def reached(view, session):
    """Where the user of a live session is reached, as a script prints it."""
    address, prefix = view.value(session, "address"), view.value(session, "prefix")
    words = [] if address is None else [".".join(str(octet) for octet in address)]
    words += [] if prefix is None else [f"{prefix[1].hex()}/{prefix[0]}"]
    return ",".join(words)


def show_gx(tables, view, session):
    """The lines of a session of a gateway."""
    line = f"gx {printed(session.id)} {state(view, session)}"
    if not view.live(session):
        return [line]
    lines = [f"{line} {reached(view, session)} {printed(view.value(session, 'apn'))} home {view.home(session)}"]
    lines += [f"rule {rule.precedence} {printed(rule.name)} {rule.status} {rule.qci} {rule.max_ul} {rule.max_dl}"
              for rule in rules(tables, view, session)]
    return lines + [f"told {printed(name)}" for name in sorted(told(view, session))]


def show_af(view, session):
    """The line of a session of an application function."""
    line = f"af {printed(session.id)}"
    if not view.live(session):
        return f"{line} {state(view, session)}"
    gx = binding(view, session)
    bound = "unbound" if gx is None else f"bound {printed(gx.id)}"
    return f"{line} {bound}" + (" aborted" if view.aborted(session) else "")


class World:
    """Sites of equal tables, and the letters that they made."""

    def __init__(self, tables, count, read=read_request):
        self.tables = tables
        self.sites = [Site(tables, number, read=read) for number in range(count)]
        self.letters, self.pushes, self.aborts = [], [], []

    def obey(self, line):
        """Does what a line behind `sites` says, and gives the lines that it prints."""
        word, *words = line.split(" ")
        sites = [int(one) for one in words[:2 if word in ("letter", "ack") else 1]]
        if any(site >= len(self.sites) for site in sites):
            return ["refused NoSuchSite"]
        return getattr(self, word)(*sites, *words[len(sites):])

    def msg(self, site, digits):
        """A site is given bytes."""
        frames, left = cut_stream(bytes.fromhex(digits))
        answers = [self.sites[site].serve(frame) for frame in frames]
        lines = ["no answer" if one is None else f"answer {one.hex()}" for one in answers]
        return lines + ([] if left is None else [f"frame {left}"])

    def push(self, site):
        """A site pushes."""
        pushed = self.sites[site].push()
        if pushed is None:
            return ["none"]
        session, entries = pushed
        view = self.sites[site].view()
        self.pushes.append(rar(site, session.id, view.value(session, "host"), view.value(session, "realm"), entries))
        names = [("-" if rule is None else "+") + printed(name) for name, rule in entries]
        return [" ".join(["push", printed(session.id)] + names)]

    def abort(self, site):
        """A site aborts."""
        session = self.sites[site].abort()
        if session is None:
            return ["none"]
        view = self.sites[site].view()
        self.aborts.append(asr(site, session.id, view.value(session, "host"), view.value(session, "realm")))
        return [f"abort {printed(session.id)}"]

    def retell(self, site, word):
        """A site counts what the gateway of a session was told as not there."""
        return ["retold" if self.sites[site].retell(unprinted(word)) else "none"]

    def post(self, letter):
        """A letter that was made."""
        self.letters.append(letter)
        return [f"letter {len(self.letters) - 1}"]

    def letter(self, maker, peer):
        """A site makes a letter for another."""
        return self.post(written(self.sites[maker], peer))

    def ack(self, taker, maker):
        """A site tells another what it took of it."""
        return self.post(acknowledged(self.sites[taker], maker))

    def merge(self, site, letter):
        """A site takes a letter."""
        if int(letter) >= len(self.letters):
            return ["refused NoSuchLetter"]
        self.sites[site].take(self.letters[int(letter)].operations)
        self.sites[site].letters.append(self.letters[int(letter)])
        return ["merged"]

    def restart(self, site):
        """A site begins anew."""
        epoch = self.sites[site].epoch + 1
        self.sites[site] = Site(self.tables, site, epoch, self.sites[site].read)
        return [f"restart {site} epoch {epoch}"]

    def show(self, site):
        """A site is shown."""
        return self.sites[site].show()


def run_script(tables, lines, read=read_request):
    """What a script without bad lines prints, by sites that read requests so."""
    world, prints = None, []
    for line in lines:
        if not line or line.startswith("#"):
            continue
        if world is None:
            world = World(tables, int(line.split(" ")[1]), read)
            prints.append(line)
        else:
            prints += world.obey(line)
    return prints


if __name__ == "__main__":
    with open(sys.argv[2], encoding="utf-8") as script:
        print("\n".join(run_script(read_tables(sys.argv[1]), script.read().split("\n"))))
