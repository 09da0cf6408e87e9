"""Sites of the program on loopback, for the examples: ports that nobody has, what a site tells its operator, its end, and a peer site of it
that is none."""
import os
import pathlib
import socket
import struct
import subprocess
import threading
import time

HERE = pathlib.Path(__file__).resolve().parent
TABLES = HERE.parent / "telephony.toml"
SECONDS = 60.0


def free_ports(count):
    """Ports of loopback that nobody has."""
    held = [socket.socket() for _ in range(count)]
    for one in held:
        one.bind(("127.0.0.1", 0))
    ports = [one.getsockname()[1] for one in held]
    for one in held:
        one.close()
    return ports


class Site:
    """A running site. What it tells its operator is read as it comes."""

    def __init__(self, program, number, listen, exchange, connections, turns, peers, tables=TABLES, environment=os.environ, more=()):
        words = [program, "serve", "--site", number, "--epoch", 1, "--host", f"pcrf{number}.example", "--realm", "example",
                 "--address", "127.0.0.1", "--listen", f"127.0.0.1:{listen}", "--exchange", f"127.0.0.1:{exchange}",
                 "--connections", connections, "--turns", turns, *more, tables, *[f"127.0.0.1:{peer}" for peer in peers]]
        self.number, self.listen, self.lines, self.seen, self.grown = number, listen, [], 0, threading.Condition()
        self.process = subprocess.Popen([str(word) for word in words], env={**environment, "PCRF_LOG": "info"}, text=True,
                                        stdin=subprocess.DEVNULL, stdout=subprocess.PIPE, stderr=subprocess.PIPE)
        self.reader = threading.Thread(target=self.read_lines, daemon=True)
        self.reader.start()

    def read_lines(self):
        """Keeps each line that the site tells."""
        for line in self.process.stderr:
            with self.grown:
                self.lines.append(line.rstrip("\n"))
                self.grown.notify_all()

    def wait_for(self, text, count=1, last=""):
        """Waits until so many lines with that text were told that end so."""
        end = time.monotonic() + SECONDS
        with self.grown:
            while sum(text in line and line.endswith(last) for line in self.lines) < count:
                if not self.grown.wait(end - time.monotonic()):
                    raise TimeoutError(f"site {self.number} did not tell: {text} {last}")

    def told(self, *wanted):
        """Since this was asked last the site told just these lines, in any order; what is told after the last of them is for the next."""
        end, seen = time.monotonic() + SECONDS, self.seen
        self.seen += len(wanted)
        with self.grown:
            while len(self.lines) < self.seen and self.grown.wait(end - time.monotonic()):
                pass
            lines = sorted(self.lines[seen : self.seen])
        if lines != sorted(wanted):
            raise RuntimeError(f"site {self.number} told {lines}, not {sorted(wanted)}")

    def ended(self):
        """What the site printed, once it has ended well, and all that it told is read."""
        if self.process.wait(SECONDS):
            raise RuntimeError(f"site {self.number} ended with status {self.process.returncode}")
        self.reader.join(SECONDS)
        return self.process.stdout.read()

    def stop(self):
        """Ends the site if it still runs."""
        if self.process.poll() is None:
            self.process.kill()
        self.process.wait()


class Peer:
    """What a site has for a peer site: a program that dials it and is dialled by it, and writes letters as docs/LETTERS.md has them."""

    def __init__(self, program, connections, turns, edition=7):
        listen, self.exchange = free_ports(2)
        self.edition, self.listener = edition, socket.create_server(("127.0.0.1", 0))
        self.listener.settimeout(SECONDS)
        port = self.listener.getsockname()[1]
        self.site = Site(program, 0, listen, self.exchange, connections, turns, [port])
        self.dialled, _ = self.listener.accept()
        self.dialling = socket.create_connection(("127.0.0.1", self.exchange))
        self.at, self.own = (f"127.0.0.1:{number}" for number in (port, self.dialling.getsockname()[1]))

    def write(self, stream, kind, body, version=3):
        """Writes a letter of the peer site, which is number 1, in its first epoch."""
        letter = struct.pack(">BIBHB", version, self.edition, 1, 1, kind) + body
        stream.sendall(struct.pack(">I", len(letter)) + letter)

    def acknowledge(self, count, version=3):
        """Acknowledges so many of the site's operations."""
        self.write(self.dialled, 3, struct.pack(">BHQ", 0, 1, count), version)

    def tell_all(self, version=3):
        """Tells the site all that the peer site holds: nothing."""
        self.write(self.dialling, 2, struct.pack(">QQI", 0, 0, 0), version)

    def stop(self):
        """Ends the site, and all that is open."""
        self.site.stop()
        for stream in (self.listener, self.dialled, self.dialling):
            stream.close()
