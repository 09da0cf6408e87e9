#!/usr/bin/env python3
"""Debian's nextepc-pgw as the gateway of a site that stays, with a serving gateway and an application function in Python: by `--forms
standard` a call of both ways gets a bearer with filters for both, by which packets of the call come to the terminal, and loses it when the
call ends. Without these words the same call gets none, though the gateway answers by 2001.

usage: bearer_by_nextepc.py PROGRAM     with Debian's nextepc-pgw and iproute2; the gate doesn't run it

It is run as root, since the gateway makes a device, which goes with it. Packets from the terminal aren't tried: this gateway lets all of
them pass, so that what it was told of them is seen in the filters alone.
"""
import os
import pathlib
import socket
import struct
import subprocess
import sys
import tempfile
import time

sys.dont_write_bytecode = True
HERE = pathlib.Path(__file__).resolve().parent
sys.path.insert(0, str(HERE.parent))
import gtp
from diameter import RX, find, read_avps
from sites import SECONDS, free_ports
from stays import Relay, Staying, ask, end_avps, known, require

GATEWAY, SERVING = "127.0.0.3", "127.0.0.2"
DEVICE, POOL = f"pgw{os.getpid()}", "198.18.0.1/24"  # the gateway's own address, and how many bits those of its terminals share with it
PASSED_OVER = "Not supported(278)"  # of an Origin-State-Id, which it doesn't know
PEER, PEER_PORT, TERMINAL_PORT, OTHER_PORT = "203.0.113.7", 5004, 49152, 49153
DOWNLINK, UPLINK, UDP = 1, 2, 17  # directions as a traffic flow template has them, and a protocol
FIRST, CALLS = 5, 6  # the bearers' numbers (EPS Bearer ID), and the TEIDs by which their packets come
SILENCE = 3
RE_AUTH = 258


def wait(is_so, what):
    """Waits until something is so."""
    end = time.monotonic() + SECONDS
    while not is_so():
        require(time.monotonic() < end, what)
        time.sleep(0.1)


class Watched(Relay):
    """What stands between the gateway and the site, and keeps each message that passes."""

    def __init__(self, port):
        self.messages = []
        super().__init__(port)

    def kept(self):
        """What keeps each whole message of a stream that comes in pieces."""
        pending = b""

        def look(piece):
            nonlocal pending
            pending += piece
            while len(pending) > 3 and len(pending) >= (length := int.from_bytes(pending[1:4], "big")):
                self.messages.append(pending[:length])
                pending = pending[length:]

        return look

    def pass_letters(self, near, far):
        self.pass_bytes(near, far, self.kept())

    def pass_back(self, far, near):
        self.pass_bytes(far, near, self.kept())

    def re_auths(self, is_request):
        """The AVPs of each re-authorisation request, or answer."""
        return [read_avps(message[20:]) for message in self.messages
                if int.from_bytes(message[5:8], "big") == RE_AUTH and message[4] >> 7 == is_request]

    def re_authorised(self, count):
        """The AVPs of the last re-authorisation request, once so many were answered, all of them by 2001."""
        wait(lambda: len(self.re_auths(False)) >= count, f"{count} re-authorisation requests aren't answered")
        codes = [find(avps, "Result-Code") for avps in self.re_auths(False)]
        require(codes == [2001] * count, f"the gateway answered by {codes}")
        return self.re_auths(True)[-1]


class Gateway:
    """The gateway, which is a process of its own."""

    def __init__(self, folder, site):
        self.control, self.user, port, secure = free_ports(4)
        self.log = pathlib.Path(folder, "pgw.log")
        text = (HERE / "pgw.conf").read_text()
        words = {"FOLDER": folder, "GATEWAY": GATEWAY, "PORT": port, "SECURE": secure, "SITE": site, "CONTROL": self.control,
                 "USER": self.user, "POOL": POOL, "DEVICE": DEVICE}
        for key, value in words.items():
            text = text.replace(f"@{key}@", str(value))
        pathlib.Path(folder, "pgw.conf").write_text(text)
        self.process = subprocess.Popen(["nextepc-pgwd", "-f", "pgw.conf", "-p", "pid"], cwd=folder, stdin=subprocess.DEVNULL,
                                        stdout=subprocess.DEVNULL, stderr=subprocess.DEVNULL)

    def lines(self):
        """The lines of its log."""
        return self.log.read_text(errors="replace").splitlines() if self.log.exists() else []

    def told(self, text):
        """Waits until its log has that."""
        wait(lambda: any(text in line for line in self.lines()), f"the gateway doesn't tell: {text}")

    def open(self):
        """It serves, and its device has its address, so that packets to terminals come to it."""
        self.told("CONNECTED TO 'pcrf0.example'")
        wait(pathlib.Path("/sys/class/net", DEVICE).exists, f"the gateway has no device {DEVICE}")
        for words in (["addr", "add", POOL, "dev", DEVICE], ["link", "set", DEVICE, "up"]):
            subprocess.run(["ip", *words], check=True)

    def __enter__(self):
        return self

    def __exit__(self, kind, _value, _trace):
        self.process.terminate()
        try:
            self.process.wait(SECONDS)
        except subprocess.TimeoutExpired:
            self.process.kill()
            self.process.wait()
        if kind is not None:
            sys.stderr.writelines(f"{line}\n" for line in self.lines()[-40:])


class ServingGateway:
    """The serving gateway of one terminal."""

    def __init__(self, gateway):
        self.to, self.teid, self.sequence, self.seen = (GATEWAY, gateway.control), 0, 0, set()
        self.control, self.user = (socket.socket(socket.AF_INET, socket.SOCK_DGRAM) for _ in range(2))
        for stream, port in ((self.control, gateway.control), (self.user, gateway.user)):
            stream.bind((SERVING, port))
            stream.settimeout(SECONDS)

    def read(self, wanted):
        """The sequence number and the elements of the next message, which has to be of that type; one that is repeated is passed over."""
        while True:
            kind, _teid, sequence, elements = gtp.read_message(self.control.recv(1 << 16))
            if (kind, sequence) not in self.seen:
                self.seen.add((kind, sequence))
                require(kind == wanted, f"the gateway sent a message {kind}, and not {wanted}: {elements}")
                return sequence, elements

    def ask(self, kind, elements):
        """Sends a request; the elements of the answer, which accepts it."""
        self.sequence += 1
        self.control.sendto(gtp.write_message(kind, self.teid, self.sequence, elements), self.to)
        _sequence, answer = self.read(kind + 1)
        require(gtp.find(answer, gtp.CAUSE)[:1] == gtp.ACCEPTED[:1], f"request {kind} was answered by {answer}")
        return answer

    def attach(self):
        """The terminal attaches; the address that the gateway gives it."""
        first = [(gtp.EBI, 0, bytes([FIRST])), (gtp.F_TEID, 2, gtp.f_teid(gtp.SGW_USER, FIRST, SERVING)),
                 (gtp.BEARER_QOS, 0, gtp.bearer_qos(9, 8))]
        place = bytes([0x18]) + gtp.PLMN + b"\0\1" + gtp.PLMN + b"\0\0\1\1"  # a tracking area and a cell
        answer = self.ask(gtp.CREATE_SESSION, [
            (gtp.IMSI, 0, gtp.digits("001010000000001")), (gtp.MSISDN, 0, gtp.digits("15550100")), (gtp.ULI, 0, place),
            (gtp.SERVING_NETWORK, 0, gtp.PLMN), (gtp.RAT_TYPE, 0, bytes([6])), (gtp.F_TEID, 0, gtp.f_teid(gtp.SGW_CONTROL, 1, SERVING)),
            (gtp.APN, 0, b"\3net"), (gtp.SELECTION_MODE, 0, bytes(1)), (gtp.PDN_TYPE, 0, bytes([1])), (gtp.PAA, 0, bytes([1, 0, 0, 0, 0])),
            (gtp.APN_RESTRICTION, 0, bytes(1)), (gtp.AMBR, 0, struct.pack(">II", 1000, 2000)), (gtp.BEARER_CONTEXT, 0, first)])
        self.teid = struct.unpack(">I", gtp.find(answer, gtp.F_TEID, 1)[1:5])[0]
        return socket.inet_ntoa(gtp.find(answer, gtp.PAA)[1:5])

    def created(self):
        """The gateway creates a bearer, which is accepted; the elements of its request, where nextepc's own F-TEID has the instance 2, and
        not 1 (7.2.3)."""
        sequence, elements = self.read(gtp.CREATE_BEARER)
        bearer = [(gtp.EBI, 0, bytes([CALLS])), (gtp.CAUSE, 0, gtp.ACCEPTED), (gtp.F_TEID, 2, gtp.f_teid(gtp.SGW_USER, CALLS, SERVING)),
                  (gtp.F_TEID, 3, gtp.find(elements, gtp.F_TEID, 2))]
        self.answer(gtp.CREATE_BEARER, sequence, bearer)
        return elements

    def deleted(self):
        """The gateway deletes the call's bearer, and no other."""
        sequence, elements = self.read(gtp.DELETE_BEARER)
        require(gtp.find(elements, gtp.EBI, 1) == bytes([CALLS]), f"the gateway deletes {elements}")
        self.answer(gtp.DELETE_BEARER, sequence, [(gtp.EBI, 0, bytes([CALLS])), (gtp.CAUSE, 0, gtp.ACCEPTED)])

    def answer(self, kind, sequence, bearer):
        """Accepts a request about a bearer."""
        message = gtp.write_message(kind + 1, self.teid, sequence, [(gtp.CAUSE, 0, gtp.ACCEPTED), (gtp.BEARER_CONTEXT, 0, bearer)])
        self.control.sendto(message, self.to)

    def silent(self):
        """Nothing comes for a while."""
        self.control.settimeout(SILENCE)
        try:
            raise RuntimeError(f"the gateway sent {gtp.read_message(self.control.recv(1 << 16))}")
        except TimeoutError:
            self.control.settimeout(SECONDS)

    def carried(self, terminal, port):
        """The bearer by which a packet from the call's other end to that port of the terminal comes."""
        data = struct.pack(">HHHH", PEER_PORT, port, 12, 0) + b"call"
        head = struct.pack(">BBHHHBBH", 0x45, 0, 20 + len(data), 0, 0, 64, UDP, 0) + socket.inet_aton(PEER) + socket.inet_aton(terminal)
        with socket.socket(socket.AF_INET, socket.SOCK_RAW, socket.IPPROTO_RAW) as raw:
            raw.sendto(head + data, (terminal, 0))
        while True:
            came = self.user.recv(1 << 16)
            if came[8:].endswith(data):
                return struct.unpack(">I", came[4:8])[0]

    def await_bearer(self, terminal, port, bearer):
        """Waits until such packets come by that bearer: the gateway reads what it was answered in its own time."""
        wait(lambda: self.carried(terminal, port) == bearer, f"packets to port {port} don't come by bearer {bearer}")


def call_avps(function, terminal):
    """What the application function says of a call of audio, which has packets in both ways."""
    flows = [("Flow-Description", f"permit out {UDP} from {PEER} {PEER_PORT} to {terminal} {TERMINAL_PORT}"),
             ("Flow-Description", f"permit in {UDP} from {terminal} {TERMINAL_PORT} to {PEER} {PEER_PORT}")]
    component = [("Media-Component-Number", 1), ("Media-Type", 0), ("Media-Sub-Component", [("Flow-Number", 1), *flows])]
    return [("Session-Id", f"{function.host};1;1"), *function.origin(), ("Framed-IP-Address", terminal),
            ("Media-Component-Description", component)]


def filters_of_call(terminal):
    """The call's filters, in both directions with what a packet to the terminal has (TS 29.212, 5.4.2). nextepc writes the source of such a
    packet as local, and its destination as remote; TS 24.008 has the terminal's own end as local."""
    asked = {"protocol": UDP, "local address": f"{PEER}/255.255.255.255", "local port": PEER_PORT,
             "remote address": f"{terminal}/255.255.255.255", "remote port": TERMINAL_PORT}
    return [(DOWNLINK, asked), (UPLINK, asked)]


def with_bearer(function, serving, watched, terminal):
    """The call gets its bearer and loses it."""
    request = serving.created()
    quality, filters = gtp.find(request, gtp.BEARER_QOS), gtp.read_filters(gtp.find(request, gtp.BEARER_TFT))
    print(f"  the gateway creates a bearer of class {quality[1]}, whose filters are")
    for direction, asked in filters:
        print(f"    direction {direction}: {', '.join(f'{name} {value}' for name, value in asked.items())}")
    require(sorted(filters, key=str) == sorted(filters_of_call(terminal), key=str), "these aren't the call's")
    require(quality[1] == 1, "this isn't the class of audio")
    watched.re_authorised(1)
    serving.await_bearer(terminal, TERMINAL_PORT, CALLS)
    require(serving.carried(terminal, OTHER_PORT) == FIRST, "packets to another port come by the call's bearer")
    print("  packets of the call come by it, others by the first bearer")
    ask(function, "Session-Termination", end_avps(function, 1, 1))
    serving.deleted()
    watched.re_authorised(2)
    serving.await_bearer(terminal, TERMINAL_PORT, FIRST)
    print("  the call ends, and the gateway deletes the bearer")


def run(program, words):
    """A call of a terminal of the gateway. With words the site writes as strict readers want it, and the call gets a bearer."""
    with tempfile.TemporaryDirectory() as folder, Staying(program, 4, *words) as site, Watched(site.listen) as watched:
        with Gateway(folder, watched.dialled()) as gateway:
            gateway.open()
            serving, function = ServingGateway(gateway), known(site, "af.example", RX)
            terminal = serving.attach()
            print(f"  the terminal has {terminal}")
            ask(function, "AA", call_avps(function, terminal))
            for name, flow in find(watched.re_authorised(1), "Charging-Rule-Definition"):
                if name == "Flow-Information":
                    print(f"  the site tells it {', '.join(f'{key} {value}' for key, value in flow)}")
            if words:
                with_bearer(function, serving, watched, terminal)
                serving.ask(gtp.DELETE_SESSION, [(gtp.EBI, 0, bytes([FIRST]))])
                complaints = [line for line in gateway.lines() if line.startswith("[") and "] INFO: " not in line and PASSED_OVER not in line]
                require(not complaints, f"the gateway complains: {complaints}")
                print("  the terminal leaves")
            else:
                gateway.told("Not begins with reserved keyword : 'permit out'")
                serving.silent()
                print("  the gateway creates no bearer")
            require(site.count("[WARN ") + site.count("[ERROR") == 0, f"the site warns: {site.lines}")


def main(program):
    """Runs both."""
    try:
        for words in (("--forms", "standard"), ()):
            print(f"{' '.join(words) or 'without'}:", flush=True)
            run(program, words)
    except (OSError, RuntimeError, TimeoutError, subprocess.SubprocessError) as fault:
        sys.exit(f"bearer_by_nextepc: {type(fault).__name__}: {fault}")


if len(sys.argv) != 2:
    sys.exit(__doc__)
main(sys.argv[1])
