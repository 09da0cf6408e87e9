#!/usr/bin/env python3
"""What a request costs a site that stays where so many hosts stand behind one relay, in milliseconds of the site's processor.

usage: relayed.py PROGRAM HOSTS..

Each host has one session. Then 200 updates that bring nothing new, of hosts in turn, and 200 initial requests, each of which leaves a session
to be looked at for a push. What is pushed behind an answer counts: a watchdog is answered behind it.
"""
import os
import pathlib
import subprocess
import sys

sys.dont_write_bytecode = True
TOP = pathlib.Path(__file__).resolve().parents[2]
sys.path.insert(0, str(TOP / "examples/serve"))
from diameter import GX, Connection, find
from sites import TABLES, Site, free_ports

REQUESTS = 200
RELAY = 0xFFFFFFFF


def spent(site):
    """Milliseconds of a processor that the site's threads have taken, without those that have ended."""
    tasks = pathlib.Path(f"/proc/{site.process.pid}/task")
    return sum(int((tasks / task / "schedstat").read_text().split()[0]) for task in os.listdir(tasks)) / 1e6


class Relay(Connection):
    """A relay's connection, over which requests of hosts come."""

    def ask(self, name, host, avps):
        """Sends a request of a host, which has to be granted. A push that comes before the answer is passed over."""
        self.send(name, True, [*avps[:1], ("Origin-Host", host), ("Origin-Realm", "example"), *avps[1:]])
        while (message := self.read())[1]:
            pass
        if find(message[2], "Result-Code") != 2001:
            raise RuntimeError(f"{host}: {message}")

    def credit_control(self, host, session, kind, number, more=()):
        """A credit control request of a host."""
        self.ask("Credit-Control", host, [("Session-Id", session), ("Auth-Application-Id", GX), ("Destination-Realm", "example"),
                                          ("CC-Request-Type", kind), ("CC-Request-Number", number), *more])

    def attach(self, host, session, user, address):
        """An initial request."""
        self.credit_control(host, session, 1, 0, [
            ("Subscription-Id", [("Subscription-Id-Type", 1), ("Subscription-Id-Data", user)]),
            ("Framed-IP-Address", address), ("Called-Station-Id", "ims")])


def measure(program, count):
    """Prints what an update and an initial request cost with so many hosts."""
    listen, exchange = free_ports(2)
    site = Site(program, 0, listen, exchange, 4, 0, [], more=["--stay", "--forms", "standard"])
    try:
        site.wait_for("listening at")
        relay, hosts = Relay("relay.example", listen), [f"gw{host:04}.example" for host in range(count)]
        relay.ask("Capabilities-Exchange", "relay.example", [("Host-IP-Address", "127.0.0.1"), ("Vendor-Id", 10415),
                                                              ("Product-Name", "relay"), ("Auth-Application-Id", RELAY)])
        for place, host in enumerate(hosts):
            relay.attach(host, f"{host};1;1", f"0010100000{place:05}", f"10.0.{place >> 8}.{place & 255}")
        times = []
        for step in (
            lambda turn: relay.credit_control(hosts[turn % count], f"{hosts[turn % count]};1;1", 2, turn + 1),
            lambda turn: relay.attach(hosts[turn % count], f"{hosts[turn % count]};1;more{turn}", f"0010120000{turn:05}", f"10.9.0.{turn}"),
        ):
            relay.ask("Device-Watchdog", "relay.example", [])
            begin = spent(site)
            for turn in range(REQUESTS):
                step(turn)
            relay.ask("Device-Watchdog", "relay.example", [])
            times.append((spent(site) - begin) / REQUESTS)
        print(f"{count} hosts: an update {times[0]:.3f}, an initial request {times[1]:.3f}", flush=True)
    finally:
        site.stop()


if len(sys.argv) < 3:
    sys.exit(__doc__)
for hosts in sys.argv[2:]:
    measure(sys.argv[1], int(hosts))
