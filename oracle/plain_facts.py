"""What a list of facts shows: a plain model of sessions, bindings and rules, apart from the product.

Nothing is kept beside the facts: each question is answered from the whole list. TS 23.203 has the architecture,
TS 29.212 the sessions of gateways (Gx), TS 29.214 those of application functions (Rx), TS 29.213 how both are bound.
"""
import tomllib
from typing import NamedTuple

ENABLED, REMOVED = 2, 4
RTCP, SIGNALLING = 1, 2
OTHER_MEDIA = 0xFFFFFFFF
USER_PLACES = ("address", "prefix")  # where the user of a session is reached
GX_FIELDS = ("apn", "subscribers", "host", "realm", "last")


class Tag(NamedTuple):
    """How new a fact is: the CC-Request-Number (0 where there is none), then the stamp of its operation."""
    number: int
    counter: int
    site: int


class Session(NamedTuple):
    """A session of a gateway (`gx`) or of an application function (`af`)."""
    kind: str
    id: bytes


class Fact(NamedTuple):
    """A value at a place of a session, or, without a tag, that the place is gone.

    A place is (field), (component, field), (component, flow, field) or ("told", name of a rule). A session that
    ended is gone at (), a component at (component), a flow at (component, flow). That a session was aborted is a fact at
    ("aborted") that has neither a tag nor a value.
    """
    session: Session
    place: tuple
    tag: Tag | None = None
    value: object = None


class Rule(NamedTuple):
    """A PCC rule; rules of one tag are compared by these in their order."""
    name: bytes
    status: int
    filters: tuple
    qci: int
    priority: int
    capability: int
    vulnerability: int
    max_ul: int
    max_dl: int
    precedence: int


ABORTED = ("aborted",)


class View:
    """What facts show: the greatest value of each place that isn't gone."""

    def __init__(self, facts):
        self.sessions = sorted({fact.session for fact in facts})
        self.gone = {(fact.session, fact.place) for fact in facts if fact.tag is None and fact.place != ABORTED}
        self.abort_facts = {fact.session for fact in facts if fact.place == ABORTED}
        self.shown = {}
        for fact in facts:
            key = (fact.session, fact.place)
            if fact.tag is not None and not self.is_gone(*key):
                self.shown[key] = max(fact, self.shown.get(key, fact), key=rank)

    def is_gone(self, session, place):
        """Whether the session ended, or the place or one above it was removed."""
        return any((session, place[:length]) in self.gone for length in range(len(place) + 1))

    def value(self, session, *place):
        """The value of a place, None if it shows none."""
        fact = self.shown.get((session, place))
        return None if fact is None else fact.value

    def tag(self, session, *place):
        """The tag of the value of a place that shows one."""
        return self.shown[session, place].tag

    def ended(self, session):
        """Whether a session ended."""
        return (session, ()) in self.gone

    def aborted(self, session):
        """Whether the application function of a session that hasn't ended was asked to abort it."""
        return session in self.abort_facts and not self.ended(session)

    def shows(self, session, field):
        """Whether a session shows a field."""
        return (session, (field,)) in self.shown

    def live(self, session):
        """Whether enough is known of a session that hasn't ended: where its user is reached, and of a gateway's all else."""
        wanted = GX_FIELDS if session.kind == "gx" else ()
        return any(self.shows(session, place) for place in USER_PLACES) and all(self.shows(session, field) for field in wanted)

    def all_live(self, kind):
        """The live sessions of a kind, by Session-Id."""
        return [session for session in self.sessions if session.kind == kind and self.live(session)]

    def home(self, session):
        """The site that served the last request of a session that shows one."""
        return self.tag(session, "last").site

    def places(self, session):
        """All places of a session that show a value."""
        return [place for owner, place in self.shown if owner == session]


def rank(fact):
    """The order of facts on one place: the tag, then the value. To be told nothing is below every rule."""
    return (fact.tag, fact.value is not None, fact.value)


# ---- operator tables

def read_tables(path):
    """The operator tables of a file that has no fault."""
    with open(path, "rb") as file:
        return tomllib.load(file)


def apn_row(tables, apn):
    """The row of an access point, None if it has none. Capitals of its name are as small letters."""
    rows = [row for row in tables.get("apn", []) if row["name"].encode().lower() == apn]
    return rows[0] if rows else None


def media_row(tables, media_type):
    """The row of a Media-Type, None if it has none."""
    rows = [row for row in tables.get("media", []) if row["type"] == media_type]
    return rows[0] if rows else None


# ---- binding (TS 29.213, 5)

def bits(prefix):
    """The bits of an IPv6 prefix, which is its length and 16 bytes."""
    length, octets = prefix
    return f"{int.from_bytes(octets, 'big'):0128b}"[:length]


def covers(one, other):
    """Whether a prefix begins another, or is the same."""
    return bits(other).startswith(bits(one))


def reaches(view, af, gx):
    """Whether a session of a gateway has each of the address and the prefix that one of an application function gives."""
    address, prefix = view.value(af, "address"), view.value(af, "prefix")
    own = view.value(gx, "prefix")
    return ((address is None or address == view.value(gx, "address"))
            and (prefix is None or own is not None and covers(own, prefix)))


def matches(view, af, gx):
    """Whether a live session of an application function may be bound to one of a gateway."""
    apn, subscribers = view.value(af, "apn"), view.value(af, "subscribers")
    return (view.live(af) and view.live(gx) and reaches(view, af, gx)
            and (subscribers is None or bool(set(subscribers) & set(view.value(gx, "subscribers"))))
            and (apn is None or apn == view.value(gx, "apn")))


def reached_last(view, gx):
    """By which operation a live session of a gateway last said where its user is reached: its counter and site."""
    return max(view.tag(gx, place)[1:] for place in USER_PLACES if view.shows(gx, place))


def binding(view, af):
    """The matching session that last said where its user is reached, then the greatest Session-Id; None if none matches."""
    def newness(gx):
        return (reached_last(view, gx), gx.id)
    return max((gx for gx in view.all_live("gx") if matches(view, af, gx)), key=newness, default=None)


# ---- rules

def flow_row(tables, view, af, component, flow):
    """The row by which a flow is served: by its usage, else by its component's kind of media."""
    if view.value(af, component, flow, "usage") == SIGNALLING:
        return tables["signalling"]
    media_type = view.value(af, component, "media")
    return media_row(tables, OTHER_MEDIA if media_type is None else media_type)


def flow_rate(tables, view, af, component, flow, direction, cap):
    """The bit rate of a flow in a direction, `up` or `down`: what is asked for, the row's cap at most."""
    asked = view.value(af, component, flow, direction)
    if asked is None and view.value(af, component, flow, "usage") == RTCP:
        asked = tables["rtcp_bps"]
    if asked is None:
        asked = view.value(af, component, direction)
    return cap if asked is None else min(asked, cap)


def flow_status(view, af, component, flow):
    """The Flow-Status of a flow: its own, else its component's, else ENABLED."""
    stated = [view.value(af, component, flow, "status"), view.value(af, component, "status"), ENABLED]
    return next(status for status in stated if status is not None)


def rule_of(row, name, status, filters, rates):
    """A rule with what a row of the tables gives it."""
    quality = (row["qci"], row["priority"], row["capability"], row["vulnerability"])
    return Rule(name, status, tuple(filters), *quality, *rates, row["precedence"])


def flow_rule(tables, view, af, component, flow):
    """The rule of a flow that shows filters, None if nothing in the tables serves it."""
    row = flow_row(tables, view, af, component, flow)
    if row is None:
        return None
    rates = [flow_rate(tables, view, af, component, flow, direction, row[cap])
             for direction, cap in (("up", "max_ul"), ("down", "max_dl"))]
    name, status = b"af/%s/%d/%d" % (af.id, component, flow), flow_status(view, af, component, flow)
    return rule_of(row, name, status, view.value(af, component, flow, "filters"), rates)


def flow_rules(tables, view, af):
    """The rules of all flows of a session of an application function."""
    flows = [place[:2] for place in view.places(af) if len(place) == 3 and place[2] == "filters"]
    rules = [flow_rule(tables, view, af, component, flow) for component, flow in flows]
    return [rule for rule in rules if rule is not None]


def operator_rules(tables, apn):
    """The rules that every session of an access point has."""
    rows = (apn_row(tables, apn) or {}).get("rule", [])
    return [rule_of(row, b"op/" + row["name"].encode(), row["status"], [text.encode() for text in row["filters"]],
                    (row["max_ul"], row["max_dl"])) for row in rows]


def rules(tables, view, gx):
    """The PCC rules of a session of a gateway, by precedence and then by name; none if it isn't live."""
    if not view.live(gx):
        return []
    found = operator_rules(tables, view.value(gx, "apn"))
    for af in view.all_live("af"):
        if binding(view, af) == gx:
            found += flow_rules(tables, view, af)
    return sorted(found, key=lambda rule: (rule.precedence, rule.name))


def told(view, gx):
    """The rules that the gateway of a session was told last, by their names."""
    return {place[1]: view.value(gx, *place) for place in view.places(gx)
            if place[0] == "told" and view.value(gx, *place) is not None}


def difference(tables, view, gx):
    """What the gateway of a session lacks: (name, None) to be removed, then (name, rule) to be installed."""
    known, wanted = told(view, gx), rules(tables, view, gx)
    removed = sorted(set(known) - {rule.name for rule in wanted})
    return [(name, None) for name in removed] + [(rule.name, rule) for rule in wanted if known.get(rule.name) != rule]
