#!/usr/bin/env python3
"""Wireshark's dissector reads what sites write by `--forms standard`: the answers that the scripts of `pcrf_checks` bring, and all that .ci/strict-peers
has a server write, caught on the loopback device. It fails where tshark finds something malformed, or a command, an AVP, a value or a
length that it doesn't know. Answers that repeat a peer's own fault are counted apart, and what tshark says of them is shown: those with a
Failed-AVP, which has the AVP at fault as it came (RFC 6733, 7.5), and those whose command isn't served, which may be one that nobody knows.

usage: dissected_by_tshark.py PROGRAM      as root, with Debian's tshark; the gate doesn't run it
"""
import collections
import pathlib
import re
import struct
import subprocess
import sys
import tempfile
import time

TOP = pathlib.Path(__file__).resolve().parents[3]
sys.dont_write_bytecode = True
sys.path.insert(0, str(TOP / "oracle"))
from grammars import cut, first

SCRIPTS = ["answers.script", "calls.script", *[f"random_calls_{number:02}.script" for number in range(12)]]
USER_0 = 147  # the link type of a capture whose packets are whole messages
AS_MESSAGES = ["-o", 'uat:user_dlts:"User 0 (DLT=147)","diameter","0","","0",""']
ON_EACH_PORT = ["-d", "tcp.port==1-65535,diameter"]
WRITTEN = 'diameter.Origin-Host contains "pcrf" && !diameter.Failed-AVP'  # what a site writes, but for what repeats a fault
FAILED_AVP = 279
SERVED = (257, 265, 272, 275, 280, 282)  # the commands that a site serves
FIELDS = ("frame.number", "diameter.cmd.code", "diameter.flags.request", "_ws.expert.message", "_ws.malformed")


def answers_of(program, script):
    """The answers that a script brings."""
    ran = subprocess.run([program, "world", "--forms", "standard", TOP / "examples/telephony.toml"],
                         input=(TOP / "crates/pcrf_checks/data" / script).read_bytes(), capture_output=True, check=True)
    return [bytes.fromhex(digits) for digits in re.findall(r"^answer (\w+)$", ran.stdout.decode(), re.M)]


def repeats_a_fault(answer):
    """Whether an answer has something of its request that is at fault."""
    return int.from_bytes(answer[5:8], "big") not in SERVED or first(cut(answer[20:]), FAILED_AVP) is not None


def write_capture(file, messages):
    """A capture of these messages."""
    with open(file, "wb") as out:
        out.write(struct.pack("<IHHiIII", 0xA1B2C3D4, 2, 4, 0, 0, 1 << 18, USER_0))
        for number, message in enumerate(messages):
            out.write(struct.pack("<IIII", number, 0, len(message), len(message)) + message)


def found_in(capture, how, which="diameter"):
    """How many messages tshark dissects of these, and what it says of them."""
    words = ["tshark", "-r", capture, *how, "-Y", which, "-T", "fields", "-E", "separator=;", "-E", "occurrence=a", "-E", "aggregator=|"]
    ran = subprocess.run([*words, *[word for field in FIELDS for word in ("-e", field)]], capture_output=True, text=True, check=True)
    lines = [line.split(";") for line in ran.stdout.splitlines()]
    said = collections.Counter()
    for line in lines:
        for text in filter(None, "|".join(line[3:]).split("|")):
            said[text] += 1
    return sum(len(line[1].split("|")) for line in lines), said


def caught(program, capture):
    """Catches what .ci/strict-peers exchanges with the program."""
    tshark = subprocess.Popen(["tshark", "-q", "-i", "lo", "-f", "tcp", "-w", capture], stderr=subprocess.DEVNULL)
    try:
        time.sleep(3)
        subprocess.run([TOP / ".ci/strict-peers", program], check=True, stdout=subprocess.DEVNULL)
        time.sleep(2)
    finally:
        tshark.terminate()
        tshark.wait()


def main(program):
    """Dissects both, and says what was found."""
    answers = [answer for script in SCRIPTS for answer in answers_of(program, script)]
    faulty = [answer for answer in answers if repeats_a_fault(answer)]
    with tempfile.TemporaryDirectory() as folder:
        files = [f"{folder}/{name}.pcap" for name in ("own", "faulty", "live")]
        write_capture(files[0], [answer for answer in answers if answer not in faulty])
        write_capture(files[1], faulty)
        caught(program, files[2])
        own, repeated, live = found_in(files[0], AS_MESSAGES), found_in(files[1], AS_MESSAGES), found_in(files[2], ON_EACH_PORT, WRITTEN)
    for where, (count, said) in (("answers", own), ("answers that repeat a fault", repeated), ("over sockets", live)):
        print(f"{where}: {count} messages; {dict(said) or 'nothing that tshark misses'}")
    if not (own[0] and live[0]) or own[1] or live[1]:
        sys.exit("dissected_by_tshark: tshark finds a fault")


if len(sys.argv) != 2:
    sys.exit(__doc__)
main(sys.argv[1])
