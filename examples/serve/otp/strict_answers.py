#!/usr/bin/env python3
"""OTP's diameter decodes each answer of scripts that run by `--forms standard`, by dictionaries made of oracle/grammars.py: each AVP with M has to
be named, each that is required be there. It prints how many answers it takes, and how many it refuses, by fault and AVP.

usage: strict_answers.py PROGRAM SCRIPT..     with the tables of examples/telephony.toml

It fails where OTP finds a fault. The gate doesn't run it. With Debian's erlang-base, erlang-diameter and erlang-dev.
"""
import collections
import pathlib
import re
import subprocess
import sys
import tempfile

TOP = pathlib.Path(__file__).resolve().parents[3]
sys.dont_write_bytecode = True
sys.path.insert(0, str(TOP / "oracle"))
from grammars import AVPS, GROUPS, GX, ITEM, MESSAGES, RX

COMMANDS = {"CCA": (272, "PXY"), "CCR": (272, "REQ, PXY"), "AAA": (265, "PXY"), "AAR": (265, "REQ, PXY"), "STA": (275, "PXY"), "STR": (275, "REQ, PXY")}
DICTIONARIES = {"strict_gx": (GX, ("CCR", "CCA")), "strict_rx": (RX, ("AAR", "AAA", "STR", "STA"))}
REQUEST = "< Session-Id > { Origin-Host } { Origin-Realm } *[ AVP ]"  # which are not decoded, but have to be there
CLOSED = {"<": ">", "{": "}", "[": "]"}
OWN = "diameter_gen_base_rfc6733"  # which has the AVPs of RFC 6733


def used_by(grammars):
    """The AVPs that grammars name, and their groups."""
    names = {}
    for grammar in grammars:
        for _, _, name in ITEM.findall(grammar):
            if name != "AVP" and name not in names:
                names[name] = True
                names.update(used_by([GROUPS[name]] if name in GROUPS else []))
    return names


def lines_of(grammar):
    """A grammar as a dictionary has it: what is fixed, what is required, and what else there is."""
    items = sorted(ITEM.findall(grammar), key=lambda item: ("<{[".index(item[1]), item[2] == "AVP"))
    return [f"    {count} {sign} {name} {CLOSED[sign]}" for count, sign, name in items]


def dictionary(name, application, commands):
    """The text of a dictionary."""
    grammars = {command: MESSAGES.get(command, REQUEST) for command in commands}
    used = used_by(grammars.values())
    own = [row for row in AVPS if row[0] in used and not (row[2] == 0 and row[1] < 300)]
    lines = [f"@id {application}", f"@name {name}", f"@prefix {name}", "@vendor 10415 TGPP", f"@inherits {OWN}", "", "@avp_types"]
    for avp, code, vendor, kind, mandatory in own:
        flags = ("M" if mandatory else "") + ("V" if vendor else "")
        lines.append(f"  {avp} {code} {'Enumerated' if isinstance(kind, tuple) else kind} {flags or '-'}")
    for avp, _, _, kind, _ in own:
        if isinstance(kind, tuple):
            lines += ["", f"@enum {avp}", *[f"  V{value} {value}" for value in kind]]
    lines += ["", "@grouped"]
    for avp, code, vendor, kind, _ in own:
        if kind == "Grouped":
            lines += [f"  {avp} ::= < AVP Header: {code} {vendor} >", *lines_of(GROUPS[avp])]
    lines += ["", "@messages"]
    for command, grammar in grammars.items():
        code, flags = COMMANDS[command]
        lines += [f"  {command} ::= < Diameter Header: {code}, {flags} >", *lines_of(grammar)]
    return "\n".join(lines) + "\n"


def answers_of(program, scripts):
    """The answers that scripts print, each once."""
    answers = {}
    for script in scripts:
        text = pathlib.Path(script).read_bytes()
        ran = subprocess.run([program, "world", "--forms", "standard", TOP / "examples/telephony.toml"], input=text, capture_output=True, check=True)
        answers.update((digits, True) for digits in re.findall(r"^answer (\w+)$", ran.stdout.decode(), re.M))
    return list(answers)


def decoded(answers):
    """What OTP finds at fault, line by line."""
    with tempfile.TemporaryDirectory() as folder:
        for name, (application, commands) in DICTIONARIES.items():
            pathlib.Path(folder, f"{name}.dia").write_text(dictionary(name, application, commands), encoding="utf-8")
            subprocess.run(["diameterc", f"{name}.dia"], cwd=folder, check=True)
            subprocess.run(["erlc", f"{name}.erl"], cwd=folder, check=True)
        subprocess.run(["erlc", pathlib.Path(__file__).resolve().parent / "answers.erl"], cwd=folder, check=True)
        ran = subprocess.run(["erl", "-noshell", "-s", "answers", "main"], input="\n".join(answers) + "\n", cwd=folder, capture_output=True,
                             text=True, check=True)
    return ran.stdout.splitlines()


def main(program, *scripts):
    """Prints what OTP takes and what it doesn't."""
    answers = answers_of(program, scripts)
    faults = collections.Counter()
    lines = decoded(answers)
    for line in lines:
        print(line)
        faults[" ".join(sorted(set(re.findall(r" (\d{4}:\d+)", line))))] += 1
    print(f"OTP takes {len(answers) - len(lines)} of {len(answers)} answers; {len(lines)} it doesn't: {dict(faults)}")
    sys.exit(bool(lines) or not answers)


if __name__ == "__main__":
    if len(sys.argv) < 3:
        sys.exit(__doc__)
    main(*sys.argv[1:])
