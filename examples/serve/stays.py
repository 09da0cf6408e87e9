"""Sites that stay, and peers that share nothing with them, for the examples."""
import os
import pathlib
import re
import socket
import struct
import subprocess
import sys
import threading
import time

from diameter import Connection, find
from sites import SECONDS, TABLES, Site, free_ports

ENDED = re.compile(r"connection \d+ from \S+ (ended|was lost|was closed):")
STAMP = re.compile(r"\d{4}-\d\d-\d\dT\d\d:\d\d:\d\d\.\d{3}Z \[(INFO |WARN |ERROR) pcrf\] (.*)")
NOTICE = 240  # what a notice has where a letter has its version
FLOWS = [("Media-Sub-Component", [("Flow-Number", 1), ("Flow-Description", "permit out ip from any to any")])]
MANY_FLOWS = [("Media-Sub-Component", [("Flow-Number", number), ("Flow-Description", f"permit out 17 from 192.0.2.{number} to any 4000")])
              for number in range(1, 31)]


def require(is_so, what):
    """Ends the run where something isn't so."""
    if not is_so:
        raise RuntimeError(what)


class Staying(Site):
    """A running site that stays. What it tells is read as it comes; each line must have the time."""

    def __init__(self, program, connections, *words, watchdog=30, number=0, ports=None, epoch=("--epoch", 1), peers=()):
        self.listen, self.exchange = ports or free_ports(2)
        self.number, self.lines, self.seen, self.ends, self.grown = number, [], 0, 0, threading.Condition()
        self.process = subprocess.Popen(
            [str(word) for word in (program, "serve", "--stay", "--site", number, *epoch, "--host", f"pcrf{number}.example", "--realm",
                                    "example", "--address", "127.0.0.1", "--listen", f"127.0.0.1:{self.listen}", "--exchange",
                                    f"127.0.0.1:{self.exchange}", "--connections", connections, "--watchdog", watchdog, *words, TABLES,
                                    *[f"127.0.0.1:{port}" for port in peers])],
            env={name: value for name, value in os.environ.items() if name != "PCRF_LOG"}, text=True, stdin=subprocess.PIPE,
            stdout=subprocess.PIPE, stderr=subprocess.PIPE)
        self.reader = threading.Thread(target=self.read_lines, daemon=True)
        self.reader.start()
        self.wait_for("listening at")

    def kill(self):
        """The site's process is lost."""
        self.process.kill()
        self.process.wait()

    def read_lines(self):
        """Keeps each line that the site tells, and counts the connections that ended."""
        for line in self.process.stderr:
            with self.grown:
                self.lines.append(line.rstrip("\n"))
                self.ends += ENDED.search(line) is not None
                self.grown.notify_all()

    def wait_for_ends(self, count):
        """Waits until so many connections have ended."""
        with self.grown:
            require(self.grown.wait_for(lambda: self.ends >= count, SECONDS), f"{self.ends} connections ended, and not {count}")

    def count(self, text):
        """How many lines with that text were told."""
        with self.grown:
            return sum(text in line for line in self.lines)

    def shown(self):
        """What the site holds, as `show` of a script has it."""
        self.process.stdin.write("show\n")
        self.process.stdin.flush()
        lines = []
        while not lines or lines[-1] != "end\n":
            lines.append(self.process.stdout.readline())
            require(lines[-1], f"site {self.number} showed {len(lines)} lines and no end")
        return "".join(lines)

    def memory(self):
        """The resident memory of the process in bytes."""
        for line in pathlib.Path(f"/proc/{self.process.pid}/status").read_text().splitlines():
            if line.startswith("VmRSS:"):
                return int(line.split()[1]) * 1024
        return 0

    def __enter__(self):
        return self

    def __exit__(self, kind, _value, _trace):
        if kind is not None:
            sys.stderr.writelines(f"{line}\n" for line in self.lines[-40:])
        require(self.process.poll() is None, f"the site ended with status {self.process.returncode}")
        self.stop()
        self.reader.join(SECONDS)
        for line in self.lines:
            require(STAMP.fullmatch(line), f"a line has no time: {line}")


def ask(connection, name, avps, code=2001):
    """Sends a request; the next message answers it."""
    connection.send(name, True, avps)
    answer = connection.read()
    require(answer is not None and answer[:2] == (name, False), f"{connection.host}: {name} was followed by {answer}")
    require(find(answer[2], "Result-Code") == code, f"{connection.host}: {name} was answered by {answer}")
    return answer


def known(site, host, application, seconds=30.0):
    """A connection whose capabilities exchange was accepted."""
    connection = Connection(host, site.listen, seconds)
    ask(connection, "Capabilities-Exchange", [*connection.origin(), ("Auth-Application-Id", application)])
    return connection


def watch(connection):
    """The peer asks whether the site is there."""
    ask(connection, "Device-Watchdog", connection.origin())


def is_closed(connection):
    """The site closed the connection, and sent nothing before."""
    try:
        return connection.read() is None
    except ConnectionResetError:
        return True


def attach_avps(host, number):
    """What a gateway says of its subscriber of that number."""
    subscriber = ("Subscription-Id", [("Subscription-Id-Type", 1), ("Subscription-Id-Data", f"00101{number:010}")])
    return [("Session-Id", f"{host};1;{number}"), ("Origin-Host", host), ("Origin-Realm", "example"), ("CC-Request-Type", 1),
            ("CC-Request-Number", 0), subscriber, ("Framed-IP-Address", f"10.0.{number >> 8}.{number & 255}"), ("Called-Station-Id", "ims")]


def call_avps(connection, number, call=1, flows=FLOWS):
    """What an application function says of a call of that subscriber."""
    component = [("Media-Component-Number", 1), ("Media-Type", 0), *flows]
    return [("Session-Id", f"{connection.host};{number};{call}"), *connection.origin(),
            ("Framed-IP-Address", f"10.0.{number >> 8}.{number & 255}"), ("Media-Component-Description", component)]


def end_avps(connection, number, call=1):
    """What it says when the call ends."""
    return [("Session-Id", f"{connection.host};{number};{call}"), *connection.origin()]


def obey(connection, change):
    """The gateway is told such a change, and does it; the identifiers of what told it."""
    request = connection.read()
    require(request is not None and request[:2] == ("Re-Auth", True), f"{connection.host} got no re-authorisation request, but {request}")
    require([name for name, _ in request[2] if name.startswith("Charging-Rule-")] == [change], f"{connection.host} was told {request[2]}")
    connection.send("Re-Auth", False, [request[2][0], *connection.origin(), ("Result-Code", 2001)], request[3])
    return request[3]


def detach(gateway, number):
    """The gateway's session of that subscriber ends."""
    ask(gateway, "Credit-Control", [("Session-Id", f"{gateway.host};1;{number}"), *gateway.origin(), ("CC-Request-Type", 3),
                                    ("CC-Request-Number", 1)])


def aborted(function, number, call=1):
    """The application function is asked to end a call, and does; the identifiers of what asked."""
    request = function.read()
    require(request is not None and request[:2] == ("Abort-Session", True), f"{function.host} got no abort session request, but {request}")
    require(find(request[2], "Session-Id") == f"{function.host};{number};{call}", f"{function.host} was asked by {request[2]}")
    function.send("Abort-Session", False, [request[2][0], *function.origin(), ("Result-Code", 2001)], request[3])
    ask(function, "Session-Termination", end_avps(function, number, call))
    return request[3]


class Relay:
    """What stands before the port at which a site takes letters, and notes the epoch in the head of each letter that passes."""

    def __init__(self, port):
        self.port, self.epochs, self.streams, self.ends = port, [], [], socket.create_server(("127.0.0.1", 0))
        threading.Thread(target=self.accept, daemon=True).start()

    def dialled(self):
        """The port at which it is dialled."""
        return self.ends.getsockname()[1]

    def accept(self):
        """Joins each link to one that it dials itself."""
        while True:
            try:
                near, _ = self.ends.accept()
            except OSError:
                return
            try:
                far = socket.create_connection(("127.0.0.1", self.port))
            except OSError:
                near.close()
                continue
            self.streams += [near, far]
            threading.Thread(target=self.pass_letters, args=(near, far), daemon=True).start()
            threading.Thread(target=self.pass_back, args=(far, near), daemon=True).start()

    def pass_letters(self, near, far):
        """Hands on what the site says that dialled. Of each letter's head the epoch is noted, and notices are passed over."""
        pending, left = b"", 0

        def look(piece):
            nonlocal pending, left
            pending += piece
            while len(pending) > left + 4 and (pending[left + 4] == NOTICE or len(pending) > left + 12):
                pending = pending[left:]
                left = 4 + struct.unpack(">I", pending[:4])[0]
                if pending[4] != NOTICE:
                    self.epochs.append(struct.unpack(">H", pending[10:12])[0])
            pending, left = pending[left:], max(0, left - len(pending))

        self.pass_bytes(near, far, look)

    def pass_back(self, far, near):
        """Hands on what the other side says."""
        self.pass_bytes(far, near)

    def pass_bytes(self, source, target, look=len):
        """Hands on what comes until a side ends."""
        try:
            while piece := source.recv(1 << 16):
                look(piece)
                target.sendall(piece)
        except OSError:
            pass
        self.end(source, target)

    def end(self, *streams):
        """Ends these links."""
        for stream in streams:
            try:
                stream.shutdown(socket.SHUT_RDWR)
            except OSError:
                pass

    def cut(self):
        """Ends all links that there are."""
        self.end(*self.streams)
        self.streams.clear()

    def __enter__(self):
        return self

    def __exit__(self, _kind, _value, _trace):
        self.ends.close()
        self.cut()


class Altering(Relay):
    """One that changes the next piece of what the site says that dialled, where it is told how."""
    change = None

    def pass_letters(self, near, far):
        """Hands on what the site says that dialled, a piece of it changed."""
        try:
            while piece := near.recv(1 << 16):
                change, self.change = self.change, None
                far.sendall(piece if change is None else change(piece))
        except OSError:
            pass
        self.end(near, far)


class Pair:
    """Two sites that exchange letters, under a secret unless they are to be read, each with a file of its epoch."""

    def __init__(self, program, folder, is_sealed=True):
        self.program, self.folder, self.is_sealed = program, pathlib.Path(folder), is_sealed
        self.ports = [free_ports(2), free_ports(2)]
        self.dialled = [self.ports[1][1], self.ports[0][1]]
        for number in (0, 1):
            secret = self.folder / f"secret{number}"
            secret.write_text("5a" * 40 + "\n")
            secret.chmod(0o600)
        self.sites = [None, None]

    def start(self, number, *words):
        """Starts a site, again if it was there before."""
        secret = ("--secret", self.folder / f"secret{number}") if self.is_sealed else ()
        self.sites[number] = Staying(self.program, 4, *secret, *words, number=number, ports=self.ports[number],
                                     epoch=("--epoch-file", self.folder / f"epoch{number}"), peers=[self.dialled[number]])
        return self.sites[number]

    def agree(self):
        """Waits until all sites show the same."""
        end = time.monotonic() + 3 * SECONDS
        while len({site.shown() for site in self.sites}) > 1:
            require(time.monotonic() < end, "the sites don't show the same")
            time.sleep(0.1)

    def epoch(self, number):
        """What the file of a site's epoch says."""
        return int((self.folder / f"epoch{number}").read_text())

    def __enter__(self):
        return self

    def __exit__(self, kind, _value, _trace):
        for site in self.sites:
            if site is not None:
                if kind is not None:
                    sys.stderr.writelines(f"{site.number}: {line}\n" for line in site.lines[-40:])
                site.stop()
