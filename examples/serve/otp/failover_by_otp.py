#!/usr/bin/env python3
"""A gateway by OTP's diameter with two peers, two sites that stay, while calls are set up and ended at both: a site is killed, by which the
gateway goes over to the other, and comes back, by which the gateway goes back to it. Each time its rules of each session are those that the
session's home shows. The stack is Erlang's, so that nothing of what it reads and writes is the project's own.

usage: failover_by_otp.py PROGRAM [TIMES]     with Debian's erlang-base, erlang-dev and erlang-diameter; the gate doesn't run it
"""
import pathlib
import random
import re
import shutil
import subprocess
import sys
import tempfile
import time

sys.dont_write_bytecode = True
HERE = pathlib.Path(__file__).resolve().parent
sys.path.insert(0, str(HERE.parent))
from obeying import KEPT, Function, shown_rules
from sites import SECONDS
from stays import Pair, call_avps, end_avps, require

HOST, COUNT = "gateway.example", 8
MOST_CALLS = 12  # no more are kept at once
LIMIT = 5 * SECONDS


class Gateway:
    """The gateway, which is a process of its own."""

    def __init__(self, folder, ports):
        self.process = subprocess.Popen(["erl", "+S", "1", "-noshell", "-pa", folder, "-eval",
                                         f"gateway:main({[HOST, str(COUNT), *map(str, ports)]}).".replace("'", '"')],
                                        cwd=folder, stdin=subprocess.PIPE, stdout=subprocess.PIPE, text=True)
        self.events = []

    def line(self):
        """The next line that it says."""
        line = self.process.stdout.readline()
        require(line != "", f"the gateway ended; it said {self.events[-10:]}")
        return line.rstrip("\n")

    def wait_for(self, text):
        """Waits until it says that."""
        while (line := self.line()) != text:
            self.events.append(line)

    def tell(self, word):
        """Has it do something."""
        self.process.stdin.write(f"{word}\n")
        self.process.stdin.flush()

    def rules(self):
        """The rules that it was told of each session."""
        self.tell("rules")
        rules = {}
        while (line := self.line()) != "end":
            session, _, name = line.partition(" ")
            if session.startswith(f"{HOST};") and name != "" and " " not in name:
                rules.setdefault(session, set()).add(name)
            else:
                self.events.append(line)
        return rules

    def __enter__(self):
        return self

    def __exit__(self, *_fault):
        self.process.kill()
        self.process.wait()


class Network(Pair):
    """Two sites with an application function each, and the gateway."""

    def __init__(self, program, folder):
        super().__init__(program, folder)
        self.random, self.made, self.calls, self.functions = random.Random(1), 0, {}, [None, None]

    def begin(self, number, *words):
        """Starts a site, and its application function comes to it."""
        self.functions[number] = Function(self.start(number, "--over", 1, *words), number)

    def call(self, number):
        """A call is set up at a site, or one ends there."""
        function, ours = self.functions[number], [call for call, (at, _) in self.calls.items() if at == number]
        if ours and (len(ours) >= MOST_CALLS or self.random.random() < 0.4):
            made = self.random.choice(ours)
            code = function.asked("Session-Termination", end_avps(function, self.calls.pop(made)[1], made))
        else:
            self.made += 1
            self.calls[self.made] = (number, self.random.randint(1, COUNT))
            code = function.asked("AA", call_avps(function, self.calls[self.made][1], self.made))
        require(code == 2001, f"a call was answered by {code}")

    def load(self, numbers, seconds):
        """Calls at these sites for so long."""
        end = time.monotonic() + seconds
        while time.monotonic() < end:
            self.call(self.random.choice(numbers))
            time.sleep(0.02)

    def settle(self, gateway, home, when):
        """Each session's home is that site, and its rules are those of the gateway."""
        end = time.monotonic() + LIMIT
        while True:
            shown, rules = shown_rules(self.sites[home].shown()), gateway.rules()
            wrong = [session for session in (f"{HOST};1;{number}" for number in range(1, COUNT + 1))
                     if shown.get(session) != (home, rules.get(session, set()))]
            if not wrong:
                print(f"{when}: the gateway has the rules of its {COUNT} sessions, whose home is site {home}", flush=True)
                return
            last = "\n".join([line for line in gateway.events if f"{wrong[0]} " in line or " of " not in line][-2 * KEPT:])
            require(time.monotonic() < end, f"{when}: {wrong[0]} is {shown.get(wrong[0])}, the gateway has {rules.get(wrong[0])}\n{last}")
            time.sleep(0.2)

    def go_back(self, gateway):
        """The gateway's updates go to the first site again, once its watchdogs found that to be there."""
        end = time.monotonic() + LIMIT
        while any(home != 0 for home, _ in shown_rules(self.sites[0].shown()).values()):
            require(time.monotonic() < end, f"the gateway doesn't go back: {gateway.events[-KEPT:]}")
            time.sleep(1.0)
            gateway.tell("update")
            gateway.wait_for("updated")


def build(folder):
    """Makes the gateway, in a folder apart."""
    for words in (["diameterc", "-o", folder, "gx.dia"], ["erlc", "-I", folder, "-o", folder, "gateway.erl", f"{folder}/gx.erl"]):
        if shutil.which(words[0]) is None:
            raise RuntimeError(f"there is no {words[0]}: it is of Debian's erlang-base and erlang-diameter")
        subprocess.run(words, cwd=HERE, check=True)


def run(network, gateway, times):
    """The first site is lost, with a request under way to it, and comes back, so often."""
    gateway.wait_for("attached")
    for turn in range(1, times + 1):
        network.load((0, 1), 1.0)
        network.settle(gateway, 0, f"turn {turn}, both sites are there")
        gateway.tell("update")
        time.sleep(0.01)
        network.sites[0].kill()
        gateway.wait_for("updated")
        network.calls = {call: at for call, at in network.calls.items() if at[0] != 0}
        network.load((1,), 1.0)
        network.settle(gateway, 1, f"turn {turn}, site 0 is lost")
        network.begin(0)
        network.load((0, 1), 1.0)
        network.settle(gateway, 1, f"turn {turn}, site 0 is back")
        network.go_back(gateway)
        network.load((0, 1), 1.0)
        network.settle(gateway, 0, f"turn {turn}, the gateway is back at it")


def main(program, times=3):
    """Runs both sites with the gateway."""
    with tempfile.TemporaryDirectory() as folder, tempfile.TemporaryDirectory() as files, Network(program, files) as network:
        try:
            build(folder)
            for number in (0, 1):
                network.begin(number, "--wait", 1)
            with Gateway(folder, [site.listen for site in network.sites]) as gateway:
                run(network, gateway, int(times))
                for line in gateway.events:
                    if re.match("connected|lost|.* asks ", line):
                        print(f"  {line}")
        except (OSError, RuntimeError, TimeoutError, subprocess.SubprocessError) as fault:
            sys.exit(f"failover_by_otp: {type(fault).__name__}: {fault}")


if len(sys.argv) not in (2, 3):
    sys.exit(__doc__)
main(*sys.argv[1:])
