#!/usr/bin/env python3
"""Compares what is stored of the cases of `pcrf_checks` with what the plain model and the generators give.

`stored.py CRATE` reads what the crate's folder has: the files of `data`, and the cases of `stdin`, which have the answers to lines behind
them. It fails where a file that is drawn or put together by a program of this folder is another one, where a script, the
scripts of a file of worlds or a stream print something else than the plain model says, where the lines on scripts, on letters, on
prefixes or on drawn bindings are others or say something else, or where the answer that refuses a request of Rx has other bytes. With
`--write` it writes the files in place of comparing them, and all that `stdin` and `stdout` have of these.
"""
import contextlib
import io
import os
import sys
import tempfile

import bindings
import failed_avps
import fixed_sites
import fixed_streams
import fixed_worlds
import letters
import messages
import random_calls
import random_streams
import random_worlds
import script_lines
from messages import ip
from parts import part, with_part
from plain_facts import covers, read_tables
from plain_letters import Whole
from plain_run import letter_octets, mixed, run_lines, whole_octets
from plain_site import Site, World, converse, printed, run_script, show_af
from words import held_of, letter_of, operation_of, prefix_of, request_of, subscribers_of

TABLES = "telephony.toml"
QUESTIONS = ("bytes", "same", "bindings", "at", "of", "covering")
JUDGED = ("read", "text")  # lines on operator tables, whose answers are written by hand
WORDS = (operation_of, held_of, request_of)


# ---- what the lines on two files print

def script_prints(tables, text):
    """What a script prints."""
    return run_script(tables, text.split("\n"))


def worlds_print(tables, text):
    """What the scripts of a file print, and behind each what is said of its run."""
    prints = []
    for part in text.split("\nsites ")[1:]:
        lines = [line for line in f"sites {part}".split("\n") if line and not line.startswith("#")]
        world = World(tables, int(lines[0].split(" ")[1]))
        prints += lines[:1] + [printed for line in lines[1:] for printed in world.obey(line)] + run_lines(world)
    return prints


def streams_print(tables, text):
    """How each stream ends, and what is written."""
    answers = (converse(Site(tables, 0), bytes.fromhex(line)) for line in text.split("\n")[:-1])
    return [f"{end} {written.hex()}".rstrip() for written, end in answers]


KINDS = {"script": script_prints, "worlds": worlds_print, "streams": streams_print}


# ---- lines of cases, which are those of a script, and questions

class Asked:
    """What lines print that no program of this folder makes. Words in comments say which bytes stand in the line behind them."""

    def __init__(self, tables):
        self.tables, self.world, self.said = tables, None, []

    def obey(self, line):
        """A line with the bytes that words before it say, and what it prints; None of one that only the program judges."""
        word, *words = line.split(" ")
        if word == "#":
            self.said += [found for found in (read(line[2:]) for read in WORDS) if found is not None]
            return line, []
        if word in JUDGED:
            return line, None
        if not line:
            self.world = None
            return line, []
        if word == "sites":
            self.world = World(self.tables, int(words[0]))
            return line, [line]
        if word == "failed":
            return line, self.failed(*words)
        if word in ("post", "msg", "turns"):
            return self.given(word, words)
        return line, getattr(self, word)(*words) if word in QUESTIONS else self.world.obey(line)

    def given(self, word, words):
        """A line that gives bytes."""
        said, self.said = self.said, []
        if word == "post":
            octets, letter = letter_of(self.tables, said)
            return f"post {octets.hex()}", self.world.post(letter)
        if said:
            words[-1] = said[0].hex()
        if word == "msg":
            return " ".join([word, *words]), self.world.msg(int(words[0]), words[1])
        return " ".join([word, *words]), self.turns(*words)

    def turns(self, site, at, digits):
        """A request of which a byte is each byte in turn."""
        octets, at = bytes.fromhex(digits), int(at)
        turned = (octets[:at] + bytes([byte]) + octets[at + 1:] for byte in range(256))
        prints = [printed for one in turned for printed in self.world.msg(int(site), one.hex())]
        return [mixed("".join(f"{printed}\n" for printed in prints).encode())]

    def failed(self, code, digits):
        """What is said of a request that is refused."""
        request = bytes.fromhex(digits)
        judged = (("unsupported ", failed_avps.has_unsupported(request)), ("ill-formed ", failed_avps.is_ill_formed(request)))
        failed = failed_avps.failed_avp(request, int(code)).hex()
        return ["".join(word for word, is_so in judged if is_so) + (failed or "none")]

    def bytes(self, number):
        """A letter as bytes."""
        return [letter_octets(self.tables, self.world.letters[int(number)]).hex()]

    def same(self, *sites):
        """Whether two sites hold the same."""
        one, other = (whole_octets(Whole(0, 1, self.world.sites[int(site)].operations, 0)) for site in sites)
        return ["same" if one == other else "other"]

    def view(self, site):
        """What is seen of a site."""
        return self.world.sites[int(site)].view()

    def bindings(self, site):
        """The calls of a site."""
        view = self.view(site)
        return [show_af(view, af).removesuffix(" aborted") for af in view.all_live("af")]

    def gateways(self, site, is_asked):
        """The gateways' sessions of a site of which something is asked."""
        view = self.view(site)
        return [f"gx {printed(gx.id)}" for gx in view.all_live("gx") if is_asked(lambda field: view.value(gx, field))]

    def at(self, site, word):
        """Those that have an address."""
        return self.gateways(site, lambda value: value("address") == ip(word))

    def of(self, site, word):
        """Those that have a subscriber."""
        return self.gateways(site, lambda value: subscribers_of(word)[0] in value("subscribers"))

    def covering(self, site, word):
        """Those whose prefix covers one."""
        return self.gateways(site, lambda value: value("prefix") is not None and covers(value("prefix"), prefix_of(word)))


# ---- files

def read(*path):
    """A file."""
    with open(os.path.join(*path), encoding="utf-8") as file:
        return file.read()


def judge_calls(tables):
    """The model prints of scripts of calls what is written out by hand."""
    for name, script in (("calls", messages.calls()), ("voice_call", messages.voice_call())):
        if run_script(tables, script.lines) != script.prints:
            sys.exit(f"the model prints something else of {name}.script than what is written out by hand")


def drawn(data):
    """Makes the files of data in another folder, which has the tables, and gives their texts by name."""
    judge_calls(read_tables(os.path.join(data, TABLES)))
    with tempfile.TemporaryDirectory() as folder, contextlib.redirect_stdout(io.StringIO()):
        tables = [name for name in os.listdir(data) if name.endswith(".toml")]
        for name in tables:
            os.symlink(os.path.abspath(os.path.join(data, name)), os.path.join(folder, name))
        messages.calls().write(folder, "calls")
        messages.voice_call().write(folder, "voice_call")
        random_calls.main(os.path.join(data, TABLES), folder, os.devnull)
        random_streams.main(os.path.join(data, TABLES), os.path.join(folder, "random.streams"), os.devnull)
        random_worlds.main(folder)
        for fixed in (fixed_worlds, fixed_sites, fixed_streams):
            fixed.main(folder)
        made = [name for name in sorted(os.listdir(folder)) if name not in tables and not name.endswith(".out")]
        return {name: read(folder, name) for name in made}


class Stored:
    """What is stored, and how many parts of it were compared."""

    def __init__(self, crate):
        self.crate, self.data, self.compared = crate, os.path.join(crate, "data"), 0
        self.tables = read_tables(os.path.join(self.data, TABLES))
        self.lines = []  # each with its answers
        for line in part(read(crate, "stdin"), "cases").split("\n")[:-1]:
            if line.startswith("> "):
                self.lines[-1][1].append(line[2:])
            else:
                self.lines.append((line, []))

    def compare(self, name, stored, wanted):
        """Fails where something stored is another thing than it has to be."""
        if stored != wanted:
            sys.exit(f"{name} has to be otherwise")
        self.compared += 1

    def answers(self, line):
        """What the oracle says of a line on two files, None of another."""
        kind, *files = line.split(" ")
        if kind not in KINDS or len(files) != 2:
            return None
        return KINDS[kind](read_tables(os.path.join(self.data, files[0])), read(self.data, files[1]))

    def blocks(self):
        """The lines that a program of this folder makes, with what comes of each, block by block: a blank line ends each."""
        on_scripts = list(script_lines.all_lines(self.tables))
        headings = [at for at, (line, _) in enumerate(on_scripts) if line.startswith("# ")]
        yield from (on_scripts[first:behind] for first, behind in zip(headings, headings[1:] + [None]))
        yield list(letters.lines())
        yield bindings.lines()

    def ends_of(self, block):
        """Where the stored lines of a block begin, and where they end."""
        words = [line for line, _ in self.lines]
        first = words.index(block[0][0])
        return first, words.index("", first) if "" in words[first:] else len(words)

    def wanted(self):
        """All lines, with what each has to print; those that only the program judges print what is stored."""
        wanted, at, asked = [], 0, Asked(self.tables)
        blocks = {first: (behind, block) for block in self.blocks() for first, behind in [self.ends_of(block)]}
        while at < len(self.lines):
            if at in blocks:
                at, block = blocks[at]
                wanted += block
                continue
            line, stored = self.lines[at]
            known = self.answers(line)
            line, said = (line, known) if known is not None else asked.obey(line)
            wanted.append((line, stored if said is None else said))
            at += 1
        return wanted

    def compare_all(self):
        """Compares all."""
        for name, text in drawn(self.data).items():
            self.compare(name, read(self.data, name), text)
        wanted = self.wanted()
        for stored, line in zip(self.lines, wanted):
            self.compare(stored[0], stored, line)
        self.compare("the last line", len(self.lines), len(wanted))

    def write(self):
        """Writes all."""
        for name, text in drawn(self.data).items():
            with open(os.path.join(self.data, name), "w", encoding="utf-8") as file:
                file.write(text)
        lines = [one for line, answers in self.wanted() for one in [line, *(f"> {answer}" for answer in answers)]]
        for name in ("stdin", "stdout"):
            text = with_part(read(self.crate, name), "cases", "\n".join(lines) + "\n")
            with open(os.path.join(self.crate, name), "w", encoding="utf-8") as file:
                file.write(text)


def main(crate, *options):
    """Compares what is stored, or writes it."""
    stored = Stored(crate)
    if options:
        stored.write()
    else:
        stored.compare_all()
        print(f"{stored.compared} parts are what the oracle gives")


if __name__ == "__main__":
    main(*sys.argv[1:])
