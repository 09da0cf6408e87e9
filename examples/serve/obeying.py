"""Three sites that stay, gateways that do what they are told and keep it, and application functions with calls at random sites, for the
examples: when nothing new comes, each gateway's rules of each of its sessions are those that the session's home shows."""
import collections
import queue
import random
import threading
import time

from diameter import GX, RX, find
from sites import SECONDS, free_ports
from stays import Pair, Staying, attach_avps, call_avps, end_avps, known, require

SITES = 3
GATEWAYS = 6
SESSIONS = 3  # of each gateway
MOST_CALLS = 40  # no more are kept at once
OVER = 1  # seconds without a link behind which a site's sessions are taken over
KEPT = 10  # of so many messages of a gateway a difference tells


class Gateway:
    """A gateway that does what it is told, at whatever site it is connected to, and keeps the rules of each session by their names."""

    def __init__(self, number):
        self.host, self.number, self.at = f"gw{number}.example", number, None
        self.rules, self.lock = collections.defaultdict(set), threading.Lock()
        self.messages, self.answers = collections.deque(maxlen=KEPT), queue.SimpleQueue()

    def subscribers(self):
        """The numbers of its subscribers."""
        return range(self.number * SESSIONS, (self.number + 1) * SESSIONS)

    def connect(self, site):
        """The gateway comes to a site."""
        self.at, self.connection, self.writing = site, known(site, self.host, GX, 120.0), threading.Lock()
        threading.Thread(target=self.obey_all, args=(self.connection, self.writing), daemon=True).start()

    def attach(self):
        """Its subscribers attach."""
        for number in self.subscribers():
            self.ask("Credit-Control", attach_avps(self.host, number))

    def ask(self, name, avps):
        """Sends a request, and waits for the answer."""
        with self.writing:
            self.connection.send(name, True, avps)
        answer = self.answers.get(timeout=120.0)
        require(find(answer[2], "Result-Code") == 2001, f"{self.host}: {name} was answered by {answer}")

    def leave(self):
        """The gateway goes, and has read all by then that the site wrote."""
        self.ask("Disconnect-Peer", [*self.connection.origin(), ("Disconnect-Cause", 0)])

    def do(self, avps):
        """What a message tells of a session's rules is done."""
        rules = self.rules[find(avps, "Session-Id")]
        for name, value in avps:
            if name == "Charging-Rule-Install":
                rules.update(find([avp], "Charging-Rule-Name") for avp in value)
            elif name == "Charging-Rule-Remove":
                rules.difference_update(text for key, text in value if key == "Charging-Rule-Name")

    def obey_all(self, connection, writing):
        """Does what it is told until the connection ends."""
        try:
            while (message := connection.read()) is not None:
                name, is_request, avps, ids = message
                code = self.code_of(name, avps) if is_request else find(avps, "Result-Code")
                with self.lock:
                    self.messages.append(message)
                    if name in ("Credit-Control", "Re-Auth") and code == 2001:
                        self.do(avps)
                if not is_request:
                    self.answers.put(message)
                    continue
                session = [] if name == "Device-Watchdog" else [avps[0]]
                with writing:
                    connection.send(name, False, [*session, *connection.origin(), ("Result-Code", code)], ids)
        except OSError:
            pass

    def code_of(self, _name, _avps):
        """The code by which it answers a request."""
        return 2001

    def session(self, number):
        """The Session-Id of a subscriber's session."""
        return f"{self.host};1;{number}"

    def kept(self):
        """The rules of its sessions, as it was told them."""
        with self.lock:
            return {session: set(rules) for session, rules in self.rules.items()}


class Function:
    """An application function at a site."""

    def __init__(self, site, number):
        self.connection, self.answers = known(site, f"af{number}.example", RX, 120.0), queue.SimpleQueue()
        self.host, self.origin = self.connection.host, self.connection.origin
        threading.Thread(target=self.read_all, daemon=True).start()

    def read_all(self):
        """Keeps the answers that come."""
        try:
            while (message := self.connection.read()) is not None:
                if message[1]:
                    self.connection.send(message[0], False, [*self.origin(), ("Result-Code", 2001)], message[3])
                else:
                    self.answers.put(message)
        except OSError:
            pass

    def asked(self, name, avps):
        """The code of the answer to a request."""
        self.connection.send(name, True, avps)
        return find(self.answers.get(timeout=120.0)[2], "Result-Code")


def shown_rules(text):
    """The home and the names of the rules of each live session of a gateway, of what a site shows."""
    found, session = {}, None
    for line in text.splitlines():
        words = line.split(" ")
        if words[0] == "gx":
            session = words[1] if words[2] == "live" else None
            if session:
                found[session] = (int(words[-1]), set())
        elif words[0] == "rule" and session:
            found[session][1].add(words[2])
    return found


class Network(Pair):
    """Three sites, with an application function at each, and gateways that are connected to some of them."""
    words = ()  # with which each site is started

    def gateway(self, number):
        """A gateway of that number."""
        return Gateway(number)

    def __init__(self, program, folder, seed):
        super().__init__(program, folder)
        self.random, self.calls, self.made = random.Random(seed), {}, 0
        self.ports, self.sites, self.functions = [free_ports(2) for _ in range(SITES)], [None] * SITES, [None] * SITES
        self.gateways = [self.gateway(number) for number in range(GATEWAYS)]

    def start(self, number, *words):
        """Starts a site, again if it was there before, and its application function comes to it."""
        site = Staying(self.program, 12, "--over", OVER, *self.words, *words, number=number, ports=self.ports[number],
                       epoch=("--epoch-file", self.folder / f"epoch{number}"),
                       peers=[self.ports[other][1] for other in range(SITES) if other != number])
        self.sites[number], self.functions[number] = site, Function(site, number)

    def begin(self):
        """Starts all, and each gateway attaches at some site."""
        for number in range(SITES):
            self.start(number, "--wait", 1)
        for gateway in self.gateways:
            gateway.connect(self.random.choice(self.sites))
            gateway.attach()
        self.settle("at first")

    def living(self):
        """The numbers of the sites that run."""
        return [number for number, site in enumerate(self.sites) if site.process.poll() is None]

    def begin_call(self, subscriber, numbers=range(SITES)):
        """A call of a subscriber is set up at some of these sites."""
        number = self.random.choice(numbers)
        self.made += 1
        self.calls[self.made] = (number, subscriber)
        code = self.functions[number].asked("AA", call_avps(self.functions[number], subscriber, self.made))
        require(code == 2001, f"a call of subscriber {subscriber} was answered by {code}")

    def call(self, numbers):
        """A call is set up at some site, or one ends there."""
        number = self.random.choice(numbers)
        function = self.functions[number]
        ended = [call for call, (at, _) in self.calls.items() if at == number]
        if ended and (len(self.calls) >= MOST_CALLS or self.random.random() < 0.4):
            made = self.random.choice(ended)
            _, subscriber = self.calls.pop(made)
            code = function.asked("Session-Termination", end_avps(function, subscriber, made))
            require(code == 2001, f"the end of a call of subscriber {subscriber} was answered by {code}")
        else:
            self.begin_call(self.random.randrange(GATEWAYS * SESSIONS), [number])

    def load(self, seconds):
        """Calls for so long."""
        numbers, end = self.living(), time.monotonic() + seconds
        while time.monotonic() < end:
            self.call(numbers)
            time.sleep(0.01)

    def difference(self, shown):
        """What is wrong of some gateway's rules, by what a site shows of them; none where all is right."""
        for gateway in self.gateways:
            kept = gateway.kept()
            for number in gateway.subscribers():
                session = gateway.session(number)
                home, rules = shown.get(session, (None, set()))
                if home != gateway.at.number or kept.get(session, set()) != rules:
                    last = "\n".join(map(str, gateway.messages))
                    return (f"{session} has home {home}, and {gateway.host} is at site {gateway.at.number}; it lacks "
                            f"{sorted(rules - kept.get(session, set()))} and has {sorted(kept.get(session, set()) - rules)} beside\n{last}")
        return None

    def settle(self, when):
        """When nothing new comes all sites that run show the same, and each gateway has its rules and is at the home of its sessions."""
        end = time.monotonic() + 3 * SECONDS
        while True:
            texts = [self.sites[number].shown() for number in self.living()]
            wrong = "the sites don't show the same" if len(set(texts)) > 1 else self.difference(shown_rules(texts[0]))
            if wrong is None:
                return
            require(time.monotonic() < end, f"{when}: {wrong}")
            time.sleep(0.1)
