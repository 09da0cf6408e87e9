#!/usr/bin/env python3
"""What the trials of `pcrf_checks` read and have to print: scripts of worlds, messages and letters as bytes, and a line for each call that is tried.

`trials.py CRATE` fails where a file of the crate's folder, or what `stdout` has of them, is another one; with `--write` it writes them. What the scripts print, what is
answered and what is held comes from the plain model. A comment in a script says what its next lines try.
"""
import pathlib
import sys

import letters
from messages import GX, NETWORK, TGPP, VOICE, WITHIN, X, aar, attach, avp, base, ccr, component, str_
from parts import with_part
from plain_answers import rar
from plain_facts import read_tables
from plain_letters import Range, Whole
from plain_run import letter_octets
from plain_site import Site, World, converse, run_script

SESSION = "gw;1;1"
RESTARTED = "10.0.0.9"


# ---- scripts of worlds

def msg(site, request):
    """The line that gives a site a request."""
    return f"msg {site} {request.hex()}"


CALL = ["sites 3",
        "# an initial request", msg(0, attach()),
        "# making a letter of a whole state", "letter 0 1",
        "# taking a letter of a whole state", "merge 1 0",
        "# making an acknowledgement", "ack 1 0",
        "# taking an acknowledgement", "merge 0 1",
        "# an AA request that sets up a call", msg(0, aar("10.0.0.1", [VOICE])),
        "# a push of a call that was set up", "push 0",
        "# a push of nothing", "push 0",
        "# an AA request that changes a call", msg(0, aar(None, [component(1, status=3)])),
        "# a push of a call that was changed", "push 0",
        "# an update", msg(0, ccr(2, 1)),
        "# making a letter of five operations", "letter 0 1",
        "# taking a letter of five operations", "merge 1 2",
        "# a retelling", f"retell 0 {SESSION}",
        "# a push of what was told before", "push 0",
        "# a retelling of nothing", "retell 1 gw;1;2",
        "# a session termination request", msg(0, str_()),
        "# a push of a call that was ended", "push 0",
        "# a termination request", msg(0, ccr(3, 2)),
        "show 0", "show 1"]

BOTH = ["merge 1 0", "merge 1 1"]
RESTART = ["sites 3",
           "# an initial request, before a site starts again and after it", msg(0, attach()),
           "# making a letter of a whole state", "letter 0 1",
           "# starting again", "restart 0",
           "# an initial request, before a site starts again and after it", msg(0, attach(address=RESTARTED)),
           "# making a letter of a whole state", "letter 0 1",
           "# taking letters of two epochs, in either order and again", *BOTH, *BOTH,
           "merge 2 1", "merge 2 0", "merge 2 1", "merge 2 0",
           "show 1", "show 2"]

STORED = ["sites 2", "# an initial request", msg(0, ccr(1, 0, SESSION, "10.0.0.1", "IMS", (X,))), "show 0",
          "# making a letter of a whole state", "letter 0 1", "# taking a letter of a whole state", "merge 1 0", "show 1"]

LOST = ["sites 2",
        "# an initial request that gives a prefix", msg(0, ccr(1, 0, SESSION, None, "IMS", (X,), NETWORK)),
        "# an AA request by a prefix within", msg(0, aar(None, [VOICE], prefix=WITHIN)),
        "# an update that gives a prefix", msg(0, ccr(2, 1, prefix=NETWORK)),
        "# a termination request", msg(0, ccr(3, 2)),
        "# an abort", "abort 0", "# an abort of nothing", "abort 0",
        "# making a letter of a whole state", "letter 0 1", "# taking a letter of a whole state", "merge 1 0", "show 1"]

SCRIPTS = [CALL, STORED, RESTART, LOST]


def world_of(tables, script):
    """The world that a script leaves."""
    world = World(tables, int(script[0].split(" ")[1]))
    for line in script[1:]:
        if not line.startswith("#"):
            world.obey(line)
    return world


# ---- messages and letters

def whole(tables, site):
    """The letter of all that a site holds."""
    return letter_octets(tables, Whole(site.number, site.epoch, tuple(site.operations), len(site.log)))


def end_of_session():
    """The letter of the end of a session."""
    end = letters.gx([letters.END], number=5, counter=2)
    return letters.letter(letters.log_range([end], first=1))


def initial(counter):
    """The initial request of a session of its own, at an access point without rules, as an operation."""
    facts = [letters.address(bytes((10, 0, 0, counter))), letters.apn(b"net"), letters.subscribers([(0, b"1")]), letters.host(b"g"),
             letters.realm(), letters.last(1)]
    return letters.gx(facts, session=b"gw;1;%d" % counter, counter=counter, site=2)


def three_sessions():
    """The letter of three sessions, and of a call of the second."""
    facts = [letters.address(bytes((10, 0, 0, 2))), letters.component(1, 1, 0), letters.flow(1, 1, 1, letters.filters([b"permit in 17"]))]
    call = letters.operation(facts, session=b"af;1;1", counter=4, site=2)
    return letters.letter(letters.log_range([initial(1), initial(2), initial(3), call]))


EXCHANGE = base(257, [avp(260, avp(266, TGPP) + avp(258, GX))])
FURTHER = [ccr(2, 9), base(280), base(282)]
# A session with a prefix, a call of it, and the session's end: what leaves a call to abort.
OTHER = {"other-request": ccr(1, 0, "gw;1;9", None, "IMS", (X,), NETWORK), "other-call": aar(None, [VOICE], "af;9", WITHIN),
         "other-end": ccr(3, 1, "gw;1;9")}


def seat_lines(tables):
    """What a seat at site 0 calls, with what site 2 tells it, and the connection that it serves then."""
    world = World(tables, 3)
    ours, theirs = world.sites[0], world.sites[2]
    yield from OTHER.items()
    for line in [msg(0, one) for one in OTHER.values()] + ["abort 0"]:
        world.obey(line)
    assert len(world.aborts) == 1
    for line in [msg(0, attach()), "letter 0 2", "merge 2 0", msg(2, aar("10.0.0.1", [VOICE]))]:
        world.obey(line)
    yield "request", attach()
    yield "call", whole(tables, theirs)
    ours.take(theirs.operations)
    ours.push()
    assert ours.retell(SESSION.encode())
    ours.push()
    for status in (3, 1):
        world.obey(msg(2, aar(None, [component(1, status=status)])))
    yield "updates", letter_octets(tables, Range(2, 1, 1, tuple(theirs.log[1:])))
    ours.take(theirs.operations)
    yield "messages", EXCHANGE + b"".join(FURTHER)
    exchanged, request = ours.serve(EXCHANGE), push(ours)
    further = b"".join(map(ours.serve, FURTHER))
    assert converse(ours, EXCHANGE + b"".join(FURTHER)) == (exchanged + further, "disconnected")
    yield "answers", exchanged + request + further
    yield "answers-alone", exchanged + further


def push(site):
    """The re-authorisation request of what is due, without its identifiers."""
    session, entries = site.push()
    view = site.view()
    request = rar(site.number, session.id, view.value(session, "host"), view.value(session, "realm"), entries)
    return request[:12] + bytes(8) + request[20:]


def lines(tables):
    """Each word with its bytes."""
    yield "short", b"gw.example.net;1;20261130;0001"
    yield "long", b"gw.example.net;1;20261130;00001"
    ours, theirs = (one for one in world_of(tables, RESTART).letters)
    yield "ours", letter_octets(tables, ours)
    yield "theirs", letter_octets(tables, theirs)
    yield "both", whole(tables, world_of(tables, RESTART).sites[1])
    yield "end", end_of_session()
    yield "snapshot", whole(tables, world_of(tables, CALL[:CALL.index("# a push of nothing")]).sites[0])
    yield "sessions", three_sessions()
    yield from seat_lines(tables)


# ---- what is printed

CALLS = [*OTHER, "abort", "request", "call", "push", "retell", "push", "whole", "own", "updates"]
CONNECTION = ["a connection", "an exchange, and a push between its operation and its request's bytes"] + ["a message"] * 3


def done(call, *tried):
    """The lines of a call that isn't refused."""
    return [f"# {call}: {what}" for what in tried] + ["done"]


def steps(script):
    """The lines of each event of a script."""
    what, prints = "", []
    for line in script[1:]:
        if line.startswith("# "):
            what = line[2:]
        elif not line.startswith("show "):
            prints += done("World::step", what)
    return prints


def prints(tables):
    """All that is printed where nothing is refused."""
    yield from done("read_tables", "the tables of a network with calls")
    for script in SCRIPTS:
        yield from done("run_script", "a script") + run_script(tables, script) + steps(script)
        if any(line.startswith("restart ") for line in script):
            yield from done("World::run", "the events of a script")
    yield from done("SessionId::read and try_copy", "short") + done("SessionId::read and try_copy", "long")
    yield from done("State::merge", "two states of one session")
    yield from done("read_letter and write_letter", "end") + done("read_letter and write_letter", "snapshot")
    for call in ("Site::sessions_of", "derive_many", "Site::renew"):
        yield from done(call, "three sessions")
    for start, call, words in (("SiteBook::start", "SiteBook::step", CALLS), ("LockedSite::start", "LockedSite::call", CALLS + ["grown"])):
        yield from done(start, "a site")
        for word in words:
            yield from done(call, word)
    yield from done("serve_connection", *CONNECTION)
    yield from done("LockedSite::call", "whole") + done("LockedSite::call", "own")


# ---- files

def text_of(lines):
    """The text of lines."""
    return "".join(f"{line}\n" for line in lines)


def files(crate):
    """Each file with its text."""
    tables = read_tables(crate / "data/telephony.toml")
    head = "# Scripts of worlds: each begins at its line `sites N`, and a comment says what its next lines try."
    yield crate / "data/rows.scripts", text_of([head] + [line for script in SCRIPTS for line in script])
    yield crate / "data/trials.lines", text_of(f"{word} {found.hex()}" for word, found in lines(tables))
    yield crate / "stdout", with_part((crate / "stdout").read_text(encoding="utf-8"), "trials", text_of(prints(tables)))


def main(crate, *options):
    """Compares the files, or writes them."""
    for path, text in files(pathlib.Path(crate)):
        if options:
            path.write_text(text, encoding="utf-8")
        elif path.read_text(encoding="utf-8") != text:
            sys.exit(f"{path} differs from what trials.py writes")


if __name__ == "__main__":
    main(*sys.argv[1:])
