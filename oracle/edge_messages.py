"""Messages at the edges of the tables: each pair of neighbouring rows broken at once, and values just past a range."""
import copy

from plain_requests import AAR, BASE, CCR, CER, DPR, DWR, GX, MOST_BYTES, RX, STR, TGPP
from random_messages import BAD_FILTERS, BAD_PREFIXES, Drawn, Part, tgpp

ORIGIN = [Part(264, b"h"), Part(296, b"r")]
SUBSCRIBER = Part(443, [Part(450, 1), Part(444, b"1")])
REACHED = [Part(8, b"\x0a\0\0\x01"), Part(97, b"\0\x40" + b"\x20\x01\x0d\xb8\0\0\0\1")]
POINT = Part(30, b"net")
FLOW = [tgpp(509, 1), tgpp(507, b"permit in "), tgpp(511, 2), tgpp(512, 0), tgpp(516, 1), tgpp(515, 1)]
COMPONENT = [tgpp(518, 1), tgpp(520, 0), tgpp(511, 2), tgpp(516, 1), tgpp(515, 1), tgpp(519, FLOW)]
APPLICATIONS = [Part(258, GX), Part(260, [Part(258, RX)])]
CCR_PARTS = [Part(263, b"g")] + ORIGIN + [Part(416, 1), Part(415, 0), SUBSCRIBER] + REACHED + [POINT]
AAR_PARTS = [Part(263, b"a")] + ORIGIN + REACHED + [SUBSCRIBER, POINT, tgpp(517, COMPONENT)]
REQUESTS = [Drawn(CCR, GX, CCR_PARTS), Drawn(AAR, RX, AAR_PARTS), Drawn(STR, RX, [Part(263, b"a")] + ORIGIN),
            Drawn(CER, BASE, ORIGIN + APPLICATIONS, 0x80)]
GROUPS = {CCR: [(), (5,)], AAR: [(), (7,), (7, 5)], STR: [()], CER: [()]}


def inner(parts, path):
    """The group at a path, of places in groups, below the AVPs of a message."""
    for place in path:
        parts = parts[place].value
    return parts


def broken_pairs():
    """Each request with two neighbouring rows broken: the first is there too often, the second has a wrong size."""
    for request in REQUESTS:
        for path in GROUPS[request.command]:
            for place in range(len(inner(request.parts, path)) - 1):
                drawn = copy.deepcopy(request)
                parts = inner(drawn.parts, path)
                parts[place + 1].value = b"x" * 7 if parts[place + 1].code in (8, 443, 517, 519) else b""
                if parts[place + 1].code == 507:
                    parts[place + 1:place + 1] = [tgpp(507, b"permit in ")] * 2
                    parts[place].value = b""
                else:
                    parts += [copy.deepcopy(parts[place])] * (16 if parts[place].code == 443 else 2)
                yield drawn


def lacking():
    """Each request without one of the AVPs that it has to have, and with one that is empty."""
    short = [Drawn(CCR, GX, CCR_PARTS[:5]), Drawn(AAR, RX, AAR_PARTS[:3]), REQUESTS[2]]
    for request in short + [Drawn(command, BASE, ORIGIN, 0x80) for command in (CER, DWR, DPR)]:
        for place in range(len(request.parts)):
            drawn = copy.deepcopy(request)
            del drawn.parts[place]
            yield drawn
            drawn = copy.deepcopy(request)
            drawn.parts[place].value = b""
            yield drawn


def bad_lengths():
    """Headers that say a length that no message has, and a message that is cut off."""
    whole = Drawn(DWR, BASE, ORIGIN, 0x80).octets()
    for length in (0, 16, 19, 22, MOST_BYTES - 1, MOST_BYTES + 1, MOST_BYTES + 4, 2**24 - 4, 2**24 - 1):
        yield whole[:1] + length.to_bytes(3, "big") + whole[4:20]
    yield whole[:3]
    yield whole[:-1]


def past_a_range():
    """Requests with one value that is just past its range, a filter that isn't taken, or a header that is too short."""
    for code, value in ((450, 4), (450, 5), (416, 4)):
        drawn = copy.deepcopy(REQUESTS[0])
        for part in drawn.parts + drawn.parts[5].value:
            part.value = value if part.code == code else part.value
        yield drawn
    for octets in BAD_PREFIXES:
        for request in REQUESTS[:2]:
            drawn = copy.deepcopy(request)
            for part in drawn.parts:
                part.value = octets if part.code == 97 else part.value
            yield drawn
    for octets in BAD_FILTERS:
        flow = tgpp(519, [tgpp(509, 1), tgpp(507, octets)])
        yield Drawn(AAR, RX, [Part(263, b"a")] + ORIGIN + [tgpp(517, [tgpp(518, 1), flow])])
    for length, value in ((8, b"\0\0\0\x08"), (11, b"\0\0\0\x01\0\0\0\x08"), (12, b"\0\0\0\x01\0\0\0\x08")):
        short = Part(1032, value, TGPP, off=length - 12 - len(value))
        yield Drawn(STR, RX, [Part(263, b"a")] + ORIGIN + [short])
    for command, application in ((CCR, RX), (AAR, GX), (STR, RX), (CCR, GX)):
        yield Drawn(command, application, [Part(263, b"a")], version=2)


def edges():
    """The bytes of all these messages."""
    drawn = list(broken_pairs()) + list(lacking()) + list(past_a_range())
    return [one.octets() for one in drawn] + list(bad_lengths())
