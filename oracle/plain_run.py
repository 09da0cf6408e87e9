"""What no script prints of a world: how far its sites took each other, and its pushes, aborts and letters as bytes: a plain
model, apart from the product. docs/LETTERS.md has the bytes of letters, docs/MESSAGES.md those of pushes and aborts.
"""
from letters import (ABORTED, END, component, component_removed, field, filters, flow, flow_removed, group, letter, log_range,
                     operation, prefix, snapshot, subscribers, tag, text, told, u)
from plain_facts import View
from plain_letters import Range, Whole, said_by, taken_of
from plain_site import Site

KINDS = {"gx": 1, "af": 2}
FIELDS = {"address": 1, "apn": 2, "subscribers": 3, "host": 4, "realm": 5, "last": 6, "prefix": 7}
COMPONENT_FIELDS = {"media": 1, "status": 2, "up": 3, "down": 4}
FLOW_FIELDS = {"filters": 1, "usage": 2, "status": 3, "up": 4, "down": 5}


def mixed(octets):
    """Bytes as one number of 32 bits (Fowler, Noll and Vo, FNV-1a), as a world's lines have it."""
    number = 0x811C9DC5
    for octet in octets:
        number = (number ^ octet) * 0x01000193 % 2**32
    return f"{number:08x}"


# ---- letters as bytes

def place_order(place):
    """Where a fact stands among the facts of a session: kind of fact, component, flow, field, name."""
    match place:
        case ():
            return (1, 0, 0, 0, b"")
        case ("told", name):
            return (7, 0, 0, 0, name)
        case ("aborted",):
            return (8, 0, 0, 0, b"")
        case (str() as name,):
            return (2, 0, 0, FIELDS[name], b"")
        case (number,):
            return (3, number, 0, 0, b"")
        case (number, str() as name):
            return (5, number, 0, COMPONENT_FIELDS[name], b"")
        case (number, index):
            return (4, number, index, 0, b"")
        case (number, index, name):
            return (6, number, index, FLOW_FIELDS[name], b"")


def session_value(name, value):
    """The value of a field of a session."""
    if name == "subscribers":
        return subscribers(value)
    if name == "prefix":
        bits, octets = value
        return prefix(bits, octets[:-(-bits // 8)])
    values = {"address": lambda: u(1, 4) + value, "last": lambda: u(4, value)}
    return field(FIELDS[name], values.get(name, lambda: text(value))())


def rule_octets(what):
    """A rule, None for none."""
    if what is None:
        return None
    return (u(1, what.status) + filters(what.filters) + u(1, what.qci) + u(1, what.priority) + u(1, what.capability)
            + u(1, what.vulnerability) + u(4, what.max_ul) + u(4, what.max_dl) + u(4, what.precedence))


def fact_octets(fact):
    """A fact without its tag."""
    kind, number, index, row, name = place_order(fact.place)
    match kind:
        case 1:
            return END
        case 2:
            return session_value(fact.place[0], fact.value)
        case 3:
            return component_removed(number)
        case 4:
            return flow_removed(number, index)
        case 5:
            return component(number, row, fact.value)
        case 6:
            return flow(number, index, row, filters(fact.value) if row == 1 else fact.value)
        case 8:
            return ABORTED
    return told(name, rule_octets(fact.value))


def in_order(facts):
    """Facts of a session as they are written."""
    return sorted(facts, key=lambda fact: place_order(fact.place))


def operation_octets(one):
    """An operation."""
    session = one.facts[0].session
    return operation([fact_octets(fact) for fact in in_order(one.facts)], one.counter, one.site, one.number,
                     KINDS[session.kind], session.id)


def held(view, session, removed):
    """The facts on a session that no other overshadows."""
    shown = [fact for (owner, _), fact in view.shown.items() if owner == session]
    return removed if view.ended(session) else removed + shown


def removals(view, facts, session):
    """The facts by which a session ended, places of it are gone, or it was aborted, each once."""
    gone = {fact.place: fact for fact in facts if fact.session == session and fact.tag is None}
    return [fact for place, fact in gone.items() if not view.is_gone(session, place[:-1]) or place == ()]


def tag_octets(fact):
    """The tag behind a held fact, nothing behind a removal or an abort."""
    return b"" if fact.tag is None else tag(fact.tag.counter, fact.tag.site, fact.tag.number)


def group_octets(view, facts, session):
    """What is held of a session."""
    found = in_order(held(view, session, removals(view, facts, session)))
    return group([(fact_octets(fact), tag_octets(fact)) for fact in found], KINDS[session.kind], session.id)


def whole_octets(one):
    """The body of a whole state."""
    facts = [fact for operation in one.operations for fact in operation.facts]
    view = View(facts)
    sessions = sorted(view.sessions, key=lambda session: (KINDS[session.kind], session.id))
    clock = max((operation.counter for operation in one.operations), default=0)
    return snapshot([group_octets(view, facts, session) for session in sessions], clock, one.made)


def letter_octets(tables, one):
    """A letter."""
    if isinstance(one, Range):
        body = log_range([operation_octets(operation) for operation in one.operations], one.first)
    elif isinstance(one, Whole):
        body = whole_octets(one)
    else:
        body = u(1, 3) + u(1, one.maker) + u(2, one.maker_epoch) + u(8, one.count)
    return letter(body, edition=tables["edition"], site=one.sender, epoch=one.epoch)


# ---- what is printed of a world

def cursors(site, count):
    """How far a site took each, and how far each said that it took the site's own."""
    words = [f"site {site.number} epoch {site.epoch} took"]
    for other in range(count):
        epoch, taken = taken_of(site.letters, other)
        words += [f"{other}:{epoch}/{taken}"] if epoch else []
    words.append("said")
    for other in range(count):
        said = said_by(site.letters, other, site.number, site.epoch)
        words += [] if said is None else [f"{other}:{said[0]}/{said[1]}"]
    return " ".join(words)


def together(world):
    """What a site shows that took all letters."""
    site = Site(world.tables, 0)
    for one in world.letters:
        site.take(one.operations)
    return mixed(("\n".join(site.show()) + "\n").encode())


def run_lines(world):
    """What is printed behind a script whose world this is then."""
    lines = ["run the same"] + [cursors(site, len(world.sites)) for site in world.sites]
    lines += [" ".join([name] + [mixed(one) for one in told]) for name, told in (("pushes", world.pushes), ("aborts", world.aborts))]
    lines.append(" ".join(["letters"] + [mixed(letter_octets(world.tables, one)) for one in world.letters]))
    return lines + [f"together {together(world)}"]
