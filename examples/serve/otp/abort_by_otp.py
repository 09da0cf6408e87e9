#!/usr/bin/env python3
"""An application function by OTP's diameter at a site that stays: its call is aborted when the gateway's session ends, also where it is away
then and comes back. The stack is Erlang's, so that nothing of what it reads and writes is the project's own.

usage: abort_by_otp.py PROGRAM       with Debian's erlang-base and erlang-diameter; the gate doesn't run it
"""
import pathlib
import shutil
import subprocess
import sys
import tempfile

sys.dont_write_bytecode = True
HERE = pathlib.Path(__file__).resolve().parent
sys.path.insert(0, str(HERE.parent))
from diameter import GX
from sites import SECONDS
from stays import Staying, ask, known, obey, require, watch

GATEWAY = "gateway.example"


def credit(gateway, number, kind, more=()):
    """A request on the session of a number."""
    ask(gateway, "Credit-Control", [("Session-Id", f"{GATEWAY};1;{number}"), *gateway.origin(), ("CC-Request-Type", kind),
                                    ("CC-Request-Number", kind - 1), *more])


def attach(gateway, number):
    """The subscriber of a number attaches, and has a prefix of 64 bits and no address."""
    subscriber = ("Subscription-Id", [("Subscription-Id-Type", 1), ("Subscription-Id-Data", f"00101000000000{number}")])
    credit(gateway, number, 1, [subscriber, ("Framed-IPv6-Prefix", f"2001:db8:0:{number}::/64"), ("Called-Station-Id", "ims")])


class Function:
    """The application function, which is a process of its own."""

    def __init__(self, folder, port, what):
        self.process = subprocess.Popen(["erl", "-noshell", "-pa", folder, "-eval", f'af:main(["{port}", "{what}"]).'], cwd=folder,
                                        stdin=subprocess.DEVNULL, stdout=subprocess.PIPE, text=True)

    def __enter__(self):
        return self

    def __exit__(self, *_fault):
        self.process.kill()
        self.process.wait()

    def ended(self):
        """Prints what it said, once it has ended well."""
        said, _ = self.process.communicate(timeout=2 * SECONDS)
        sys.stdout.writelines(f"  {line}\n" for line in said.splitlines())
        require(self.process.returncode == 0, f"the application function ended with status {self.process.returncode}")


def build(folder):
    """Makes the application function, in a folder apart."""
    for words in (["diameterc", "-o", folder, "rx.dia"], ["erlc", "-I", folder, "-o", folder, "af.erl", f"{folder}/rx.erl"]):
        if shutil.which(words[0]) is None:
            raise RuntimeError(f"there is no {words[0]}: it is of Debian's erlang-base and erlang-diameter")
        subprocess.run(words, cwd=HERE, check=True)


def come_back(site, folder):
    """The application function returns, and is asked."""
    with Function(folder, site.listen, "returns") as function:
        print("one ended while the application function was away:")
        function.ended()
    site.wait_for("ended: its peer asked to disconnect", 2)


def run(site, folder):
    """A session ends during a call, and one during a call whose application function is away, and returns."""
    gateway = known(site, GATEWAY, GX)
    for number in (1, 2):
        attach(gateway, number)
    with Function(folder, site.listen, "calls") as function:
        for _ in (1, 2):
            obey(gateway, "Charging-Rule-Install")
        credit(gateway, 1, 3)
        print("a gateway's session ended during a call:")
        function.ended()
    site.wait_for("ended: its peer asked to disconnect")
    credit(gateway, 2, 3)
    come_back(site, folder)
    watch(gateway)
    require(site.count("[WARN ") + site.count("[ERROR") == 0, "the site warns")


def main(program):
    """Runs a site with both."""
    with tempfile.TemporaryDirectory() as folder:
        try:
            build(folder)
            with Staying(program, 2, watchdog=3600) as site:
                run(site, folder)
        except (OSError, RuntimeError, TimeoutError, subprocess.SubprocessError) as fault:
            sys.exit(f"abort_by_otp: {type(fault).__name__}: {fault}")


if len(sys.argv) != 2:
    sys.exit(__doc__)
main(*sys.argv[1:])
