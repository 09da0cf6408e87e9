#!/usr/bin/env python3
"""Three Diameter stacks that stay connected to two sites that stay: OTP's diameter as an application function that sets calls up and ends
them, freeDiameter as a relay, and Kamailio's cdp as a P-CSCF that describes calls; all of them with watchdogs of their own. At first
nothing is to go wrong for a while, then each peer is killed twice, and a site once. What each stack tells that sounds like a complaint is
printed, and how soon each was served again.

usage: real_peers.py PROGRAM [SECONDS [WORD..]]   SECONDS are the calm ones, 600 if they aren't given; the faults take some five minutes
    more. WORDs are for both sites, as `--forms standard`.
    With openssl and Debian's erlang-base, erlang-diameter, freediameterd, freediameter-extensions, kamailio and kamailio-ims-modules; the
    gate doesn't run it. With the environment's REAL_PEERS_LOGS, a folder that is there, all logs are left in it.
"""
import collections
import concurrent.futures
import json
import os
import pathlib
import re
import shutil
import signal
import subprocess
import sys
import tempfile
import threading
import time

sys.dont_write_bytecode = True
HERE = pathlib.Path(__file__).resolve().parent
sys.path.insert(0, str(HERE.parent))
from diameter import GX, RX, find
from sites import SECONDS, free_ports
from stays import ENDED, Staying, ask, attach_avps, known, require

EXTENSIONS = "/usr/lib/freeDiameter"
WATCHDOGS = (6, 30)
AFTERWARDS = 30
PAUSES, KEPT = (2000, 16000), 8000
CALLERS, DESCRIBED = range(1, 3), range(3, 23)
NEEDED = ("diameterc", "erlc", "erl", "openssl", "freeDiameterd", "kamailio")


class Peer:
    """A stack that is a peer of one site: a group of processes of its own, which can be killed and started again. It writes one log. Lines
    of that are a complaint; of these something varies, and is left out."""
    complaint, varying = re.compile(""), re.compile("$")

    def __init__(self, kind, site, folder):
        self.site, self.folder, self.host = site, folder, f"{kind}{site.number}.example"
        self.log = folder / f"{self.host}.log"
        self.log.touch()
        self.process = None

    def words(self):
        """What starts it."""
        raise NotImplementedError

    def start(self):
        """Starts it, in a group of processes that is its own."""
        with self.log.open("a") as log:
            self.process = subprocess.Popen([str(word) for word in self.words()], cwd=self.folder, stdin=subprocess.DEVNULL, stdout=log,
                                            stderr=subprocess.STDOUT, start_new_session=True)

    def kill(self):
        """All its processes are lost."""
        if self.process is not None:
            try:
                os.killpg(self.process.pid, signal.SIGKILL)
            except ProcessLookupError:
                pass
            self.process.wait()

    def write(self, template, name, **words):
        """Writes a configuration, with what is named put in."""
        text = (HERE / template).read_text()
        for key, value in {"HOST": self.host, "FOLDER": self.folder, "PORT": self.site.listen, **words}.items():
            text = text.replace(f"@{key}@", str(value))
        (self.folder / name).write_text(text)

    def count(self, pattern):
        """How many lines of its log fit the pattern."""
        return sum(re.search(pattern, line) is not None for line in self.log.read_text(errors="replace").splitlines())

    def served(self):
        """How often it saw itself served."""
        raise NotImplementedError

    def refused(self):
        """How often it saw itself refused, or wasn't answered."""
        return self.count("answer .*(?<!2001)$|wasn't answered")

    def complaints(self):
        """The lines that sound like a complaint, each once, and how often it was told."""
        lines = (line for line in self.log.read_text(errors="replace").splitlines() if self.complaint.search(line))
        return collections.Counter(self.varying.sub("", line) for line in lines)


class Function(Peer):
    """OTP's diameter, with calls of the subscribers of both sites: where they are rare it has time for watchdogs of its own."""
    complaint = re.compile(r"REPORT|badmatch|unexpected|lost|event (closed|reconnect)|watchdog .* to (down|suspect)|answer \S+ (?!2001$)")

    def __init__(self, site, folder, gateways):
        super().__init__("otp", site, folder)
        self.subscribers = [gateway.address(number) for number in CALLERS for gateway in gateways]

    def words(self):
        words = [self.host, self.site.listen, PAUSES[self.site.number], KEPT, *self.subscribers]
        return ["erl", "+S", "1", "-noshell", "-pa", self.folder, "-eval", f"calls:main({json.dumps([str(word) for word in words])})."]

    def served(self):
        return self.count("answer .* 2001$")


class Relaying(Peer):
    """freeDiameter."""
    complaint = re.compile(r"ERROR|FATAL|WARN|'STATE_OPEN'\s+-> |STATE_SUSPECT|STATE_ZOMBIE")
    varying = re.compile(r"^\d\d:\d\d:\d\d +")

    def __init__(self, site, folder):
        super().__init__("freediameter", site, folder)
        self.write("freediameter.conf", f"{self.host}.conf", EXTENSIONS=EXTENSIONS, SITE=f"pcrf{site.number}.example")

    def words(self):
        return ["freeDiameterd", "-c", f"{self.host}.conf"]

    def served(self):
        return self.count(r"-> 'STATE_OPEN'")


class Kamailio(Peer):
    """Kamailio with cdp. That it was served is seen at the gateway, which is told the rules of its calls."""
    complaint = re.compile("WARNING|ERROR|CRITICAL|ALERT|BUG")
    varying = re.compile(r"^ *\d+\(\d+\) | - \d+ \(session-id.*| - \[\d+ms\]| port \d+")

    def __init__(self, site, folder, gateway):
        super().__init__("kamailio", site, folder)
        self.gateway = gateway
        accepted, sip = free_ports(2)
        self.write("diameter_peer.xml", f"{self.host}.xml", ACCEPTED=accepted)
        address = int.from_bytes(map(int, gateway.address(DESCRIBED[0]).split(".")), "big")
        self.write("kamailio.cfg", f"{self.host}.cfg", SIP=sip, FIRST=address, COUNT=len(DESCRIBED),
                   AVPS=self.described().replace('"', '\\"'))

    def described(self):
        """The AVPs of a call of audio, as the module ims_diameter_server takes them. An address is the number of its four bytes."""
        def avp(code, kind, value, vendor=0):
            return {"avpCode": code, "vendorId": vendor, "Flags": 192 if vendor else 64, kind: value}
        flow = [avp(509, "int32", 1, 10415), avp(507, "string", "permit out ip from any to any", 10415)]
        component = [avp(518, "int32", 1, 10415), avp(520, "int32", 0, 10415), avp(519, "list", flow, 10415)]
        avps = [avp(258, "int32", RX), avp(283, "string", "example"), avp(8, "int32", "ADDRESS"), avp(517, "list", component, 10415)]
        return ",".join(json.dumps(each, separators=(",", ":")) for each in avps).replace('"ADDRESS"', "$var(address)")

    def words(self):
        return ["kamailio", "-f", f"{self.host}.cfg", "-DD", "-E", "-m", 32, "-M", 8, "-Y", self.folder]

    def served(self):
        return sum(self.gateway.changes[number, "Charging-Rule-Install"] for number in DESCRIBED)


class Gateway(threading.Thread):
    """A gateway at one site, whose subscribers stay. It does what it is told, answers watchdogs, and comes back where it is lost."""

    def __init__(self, site):
        super().__init__(daemon=True)
        self.site, self.host, self.changes, self.faults = site, f"gateway{site.number}.example", collections.Counter(), []
        self.connection = known(site, self.host, GX, 2 * SECONDS)
        for number in (*CALLERS, *DESCRIBED):
            ask(self.connection, "Credit-Control", attach_avps(self.host, self.number(number)))

    def number(self, subscriber):
        """The number of a subscriber, which no other gateway's has."""
        return 256 * self.site.number + subscriber

    def address(self, subscriber):
        """Its address, as attach_avps has it."""
        return f"10.0.{self.site.number}.{subscriber}"

    def run(self):
        while True:
            try:
                self.serve()
            except OSError:
                pass
            self.come_back()

    def come_back(self):
        """Connects anew, as often as is needed."""
        while True:
            time.sleep(0.5)
            try:
                self.connection = known(self.site, self.host, GX, 2 * SECONDS)
                return
            except (OSError, RuntimeError):
                pass

    def serve(self):
        """Does what is asked until the connection ends."""
        for name, is_request, avps, identifiers in iter(self.connection.read, None):
            if not is_request or name not in ("Re-Auth", "Device-Watchdog"):
                self.faults.append(f"it was sent {name}: {avps}")
                continue
            if name == "Re-Auth":
                number = int(find(avps, "Session-Id").split(";")[2]) % 256
                self.changes.update((number, change) for change, _ in avps if change.startswith("Charging-Rule-"))
            session = [avps[0]] if name == "Re-Auth" else []
            self.connection.send(name, False, [*session, *self.connection.origin(), ("Result-Code", 2001)], identifiers)


class Network:
    """Two sites with their gateways, and the six peers."""

    def __init__(self, program, folder, words):
        self.program, self.folder, self.words, self.ports = program, folder, words, [free_ports(2), free_ports(2)]
        self.told, self.sites, self.gateways, self.peers = [[], []], [None, None], [], []
        secret = folder / "secret"
        secret.write_text("5a" * 40 + "\n")
        secret.chmod(0o600)

    def start_site(self, number):
        """Starts a site."""
        self.sites[number] = Staying(self.program, 16, "--secret", self.folder / "secret", *self.words, watchdog=WATCHDOGS[number], number=number,
                                     ports=self.ports[number], epoch=("--epoch-file", self.folder / f"epoch{number}"),
                                     peers=[self.ports[1 - number][1]])

    def start(self):
        """Starts all, and waits until each peer is served."""
        with concurrent.futures.ThreadPoolExecutor(2) as both:
            list(both.map(self.start_site, (0, 1)))
        for site in self.sites:
            site.wait_for("letters of this link")
        self.gateways = [Gateway(site) for site in self.sites]
        for site, gateway in zip(self.sites, self.gateways):
            gateway.start()
            self.peers += [Function(site, self.folder, self.gateways), Relaying(site, self.folder), Kamailio(site, self.folder, gateway)]
        for peer in self.peers:
            peer.start()
        for peer in self.peers:
            wait(lambda: peer.served() > 0, f"{peer.host} isn't served")

    def lines(self, number):
        """All that a site told, in all its lives."""
        return self.told[number] + self.sites[number].lines

    def seen(self):
        """How many lines each site told."""
        return [len(self.lines(number)) for number in (0, 1)]

    def calm(self, seconds):
        """Nothing goes wrong for so long: no connection ends, no site warns, no answer is other than success."""
        end, seen, refused = time.monotonic() + seconds, self.seen(), [peer.refused() for peer in self.peers]
        while time.monotonic() < end:
            time.sleep(min(5, max(0.1, end - time.monotonic())))
            for number in (0, 1):
                wrong = [line for line in self.lines(number)[seen[number]:] if "[INFO " not in line or ENDED.search(line)]
                require(not wrong, f"site {number} told {wrong}")
            for peer in self.peers:
                require(peer.process.poll() is None, f"{peer.host} ended")
        for gateway in self.gateways:
            require(not gateway.faults, f"{gateway.host}: {gateway.faults}")
        for peer, before in zip(self.peers, refused):
            require(peer.refused() == before, f"{peer.host} was refused {peer.refused() - before} times")

    def show(self, title):
        """Prints how often each was served, and what it complained of."""
        print(f"{title}:")
        for site in self.sites:
            print(f"  site {site.number} has {site.memory() >> 20} MiB")
        for gateway in self.gateways:
            shown = ", ".join(f"{change} {count}" for change, count in sorted(sum_changes(gateway).items()))
            print(f"  {gateway.host} was told {shown}")
        for peer in self.peers:
            print(f"  {peer.host} was served {peer.served()} times")
            for line, count in peer.complaints().items():
                print(f"    {count} x {line}")
        sys.stdout.flush()

    def back(self, peers, since, before, exchanged):
        """Waits until these peers are served again, and prints when."""
        waiting, known_again = dict.fromkeys(peers), {}
        end = time.monotonic() + 2 * SECONDS
        while any(moment is None for moment in waiting.values()):
            for peer in peers:
                now = time.monotonic() - since
                if peer not in known_again and peer.site.count(f"{peer.host} of example exchanged") > exchanged[peer]:
                    known_again[peer] = now
                if waiting[peer] is None and peer.served() > before[peer] and peer in known_again:
                    waiting[peer] = now
                    print(f"    {peer.host} exchanged capabilities after {known_again[peer]:.1f} s, and was served after {now:.1f} s")
            require(time.monotonic() < end, f"not back: {[peer.host for peer in peers if waiting[peer] is None]}")
            time.sleep(0.1)
        sys.stdout.flush()

    def told_since(self, seen):
        """Prints what the sites told since, but the counts of letters."""
        for number in (0, 1):
            for line in self.lines(number)[seen[number]:]:
                if not re.search(r"INFO .*\d letters ", line):
                    print(f"    site {number}: {line}")
        sys.stdout.flush()

    def lose_peer(self, peer):
        """A peer is killed, and started again three seconds later."""
        seen = self.seen()
        print(f"  {peer.host} is killed, and started again:")
        peer.kill()
        time.sleep(3)
        before, exchanged = {peer: peer.served()}, {peer: peer.site.count(f"{peer.host} of example exchanged")}
        peer.start()
        self.back([peer], time.monotonic(), before, exchanged)
        self.told_since(seen)

    def lose_site(self, number):
        """A site is killed, and started again five seconds later."""
        seen = self.seen()
        print(f"  site {number} is killed, and started again:")
        lost = self.sites[number]
        lost.kill()
        time.sleep(5)
        peers = [peer for peer in self.peers if peer.site is lost]
        before = {peer: peer.served() for peer in peers}
        since = time.monotonic()
        self.start_site(number)
        self.told[number] += lost.lines
        print(f"    it listened after {time.monotonic() - since:.1f} s")
        for peer in peers:
            peer.site = self.gateways[number].site = self.sites[number]
        self.back(peers, since, before, dict.fromkeys(peers, 0))
        self.told_since(seen)

    def stop(self):
        """Ends all."""
        for peer in self.peers:
            peer.kill()
        for number, site in enumerate(self.sites):
            if site is not None:
                site.stop()
                (self.folder / f"site{number}.log").write_text("".join(f"{line}\n" for line in self.lines(number)))


def sum_changes(gateway):
    """How often a gateway was told each kind of change."""
    counted = collections.Counter()
    for (_number, change), count in gateway.changes.items():
        counted[change] += count
    return counted


def wait(is_so, what):
    """Waits until something is so."""
    end = time.monotonic() + 2 * SECONDS
    while not is_so():
        require(time.monotonic() < end, what)
        time.sleep(0.1)


def prepare(folder):
    """Makes the application function, and the certificate without which freeDiameter doesn't start, though it uses none."""
    for name in NEEDED:
        require(shutil.which(name) is not None, f"there is no {name}")
    for words in (["diameterc", "-o", folder, HERE.parent / "otp" / "rx.dia"],
                  ["erlc", "-I", folder, "-o", folder, HERE / "calls.erl", folder / "rx.erl"],
                  ["openssl", "req", "-x509", "-newkey", "rsa:2048", "-nodes", "-subj", "/CN=example", "-days", "2", "-addext",
                   "subjectAltName=DNS:freediameter0.example,DNS:freediameter1.example", "-keyout", folder / "key.pem", "-out",
                   folder / "certificate.pem"]):
        subprocess.run(words, check=True, stderr=subprocess.DEVNULL)


def run(program, folder, seconds, words):
    """The calm, and the faults."""
    prepare(folder)
    network = Network(program, folder, words)
    try:
        network.start()
        print(f"all are connected and served; {seconds} calm seconds begin")
        sys.stdout.flush()
        network.calm(seconds)
        network.show(f"after {seconds} calm seconds")
        print("faults:")
        for _ in (1, 2):
            for peer in network.peers:
                network.lose_peer(peer)
        network.lose_site(0)
        network.calm(AFTERWARDS)
        network.show(f"after the faults, and {AFTERWARDS} calm seconds")
    finally:
        network.stop()


def main(program, seconds="600", *words):
    """Runs all in a folder of its own."""
    with tempfile.TemporaryDirectory() as folder:
        try:
            run(program, pathlib.Path(os.environ.get("REAL_PEERS_LOGS", folder)), int(seconds), words)
        except (OSError, RuntimeError, TimeoutError, subprocess.SubprocessError) as fault:
            sys.exit(f"real_peers: {type(fault).__name__}: {fault}")


if len(sys.argv) < 2:
    sys.exit(__doc__)
main(*sys.argv[1:])
