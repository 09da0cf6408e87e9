"""The lines by which scripts are tested, with what each has to make, by docs/SCRIPTS.md alone: which line ends a script, and
why. `lines TEXT` is a script, `comment N` one of a comment of N bytes, and `times N LINE` has a line obeyed N times.
"""
import re

from plain_site import World, printed, unprinted

LAST_EPOCH, LONGEST_LINE, LONGEST_SESSION = 65535, 200000, 512
FORMS = {"sites": "n", "msg": "nb", "push": "n", "abort": "n", "retell": "ns", "letter": "nn", "merge": "nn", "ack": "nn", "restart": "n", "show": "n"}
SCRIPTS = {
    "what a script may not have: words, numbers, bytes, a world or a second one": [
        "show 0\n", "bogus\nsites 1\n", "sites 0\n", "sites 17\n", "sites 01\n", "sites 1 \n", " sites 1\n", "sites  1\n",
        "sites 1\r\n", " \n", "sites\n", "sites 1\nsites 1\n", "sites 1\n\n# comment\nshow\n", "sites 1\nshow 00\n",
        "sites 1\nshow -1\n", "sites 1\nshow 0 0\n", "sites 1\nshow 0\nletter 0\nshow 0\n", "sites 1\nmerge 0\n",
        "sites 1\nmsg 0\n", "sites 1\nmsg 0 \n", "sites 1\nmsg 0 0\n", "sites 1\nmsg 0 0g\n", "sites 1\npush\n",
        "sites 1\npush 00\n", "sites 1\npush 0 0\n", "push 0\n", "sites 1\nabort\n", "sites 1\nabort 00\n",
        "sites 1\nabort 0 0\n", "abort 0\n", "sites 1\nabort 0\nabort 1\nAbort 0\n", "sites 1\nretell 0\n", "sites 1\nretell 00 a\n",
        "sites 1\nretell 0 a b\n", "retell 0 a\n", "sites 1\nretell 0 \n", "sites 1\nretell 0 a\x7f\n", "sites 1\nretell 0 \u00e9\n",
        "sites 1\nretell 0 \\\n", "sites 1\nretell 0 a\\x4\n", "sites 1\nretell 0 a\\x4G\n", "sites 1\nretell 0 a\\X41\n",
        "sites 1\nretell 0 \\x41\\x00;b\nretell 1 a\nRetell 0 a\n", "sites 1\nrestart\n", "sites 1\nrestart 0 0\n",
        "restart 0\n", "ack 0 0\n", "sites 1\nack 0", "sites 1\nack 0 00", "sites 1\nack 0 0 0", "bogus 0 0 0 0\n",
        "Sites 1\n", "sites 4294967296\n", "sites 1 1 1\n", "sites x y\n", "letter 0 x\n", "letter x\n", "msg 0 00\n",
        "msg 00 0\n", "msg 0 00 00\n", "letter 0 0\n", "merge 0 0\n", "sites 1\nmsg 0 00 \n"],
    "bytes that are no text": ["sites 1\nshow \xff\n", "sites 1\n\xc3"],
    "lines that are passed over": ["", "\n\n# nothing\n", "# no end", "sites 16", "\n#\nsites 1\n\nshow 0\n"],
}


def is_session(word):
    """Whether a word spells a Session-Id as one is printed, of 1 to 512 bytes."""
    spelled = re.fullmatch(r"([!-\[\]-~]|\\x[0-9a-f]{2})+", word)
    return spelled is not None and len(unprinted(word)) <= LONGEST_SESSION


def fault(line, has_world):
    """Why a line is refused, None if it isn't."""
    if len(line) > LONGEST_LINE:
        return "it is longer than a line may be"
    if not line or line.startswith(b"#"):
        return None
    try:
        word, *behind = line.decode().split(" ")
    except UnicodeDecodeError:
        return "it is no text"
    form = FORMS.get(word)
    if form is None:
        return "its first word is unknown"
    if len(behind) != len(form):
        return "a word is missing" if len(behind) < len(form) else "it has a word too many"
    if any(kind == "n" and not re.fullmatch("0|[1-9][0-9]*", one) for kind, one in zip(form, behind)):
        return "a word is no decimal number"
    if any(kind == "b" and not re.fullmatch("([0-9a-fA-F]{2})+", one) for kind, one in zip(form, behind)):
        return "a word is no bytes in hexadecimal"
    if any(kind == "s" and not is_session(one) for kind, one in zip(form, behind)):
        return "a word is no Session-Id"
    if word == "sites" and not 1 <= int(behind[0]) <= 16:
        return "a world has 1 to 16 sites"
    if has_world == (word == "sites"):
        return "the world stands already" if has_world else "there is no world yet"
    return None


def said(tables, script):
    """What a script prints, and how it ends."""
    world, prints = None, []
    for number, line in enumerate(script.split(b"\n"), 1):
        why = fault(line, world is not None)
        if why is not None:
            return prints + [f"line {number}: {why}"]
        line = line.decode(errors="replace")
        if not line or line.startswith("#"):
            continue
        if world is None:
            world = World(tables, int(line.split(" ")[1]))
            prints.append(line)
        else:
            prints += world.obey(line)
    return prints + ["done"]


def spelled(octets):
    """A script as a line has it: as a script prints bytes, but for spaces."""
    return printed(octets).replace("\\x20", " ")


def all_lines(tables):
    """All lines, each with what it prints."""
    for heading, scripts in SCRIPTS.items():
        yield f"# scripts: {heading}", []
        for script in scripts:
            octets = script.encode("latin-1")
            yield f"lines {spelled(octets)}", said(tables, octets)
    yield "# a line of the greatest length, and of one byte more", []
    for length in (LONGEST_LINE, LONGEST_LINE + 1):
        yield f"comment {length}", said(tables, b"#" * length)
    yield "# a site begins anew, to its last epoch", []
    yield "sites 4", ["sites 4"]
    yield f"times {LAST_EPOCH - 1} restart 3", [f"restart 3 epoch {LAST_EPOCH}"]
    yield "restart 3", ["refused EpochFull"]
    yield "restart 2", ["restart 2 epoch 2"]
