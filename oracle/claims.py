"""Messages and letters that claim more than they have: in good ones each length and each count says more than there is, alone and all
together, with what stood behind it or a few bytes of that. The plain readers say what each is refused by.
"""
from typing import NamedTuple

import letters
from messages import GX, NETWORK, RX, TGPP, VOICE, WITHIN, X, aar, asa, attach, avp, base, ccr, message, str_
from plain_requests import MOST_BYTES, number

FEW = 4  # bytes that stand behind a claim where all else is cut off
CLAIMS = (2**30, 2**32 - 1, 2**20, 2**16)
GROUPS = (260, 297, 443, 517, 519)  # the codes of AVPs whose values are AVPs

# Ranges and whole states, with every form of fact.
MADE, HELD = letters.reached()[:2], letters.reached()[2:]
LETTERS = [letters.letter(letters.log_range([letters.attach(), letters.call(), letters.operation([letters.END], session=b"af;2")], first=4)),
           letters.state([letters.attached(), letters.called(), letters.group([(letters.END, b"")], session=b"af;2")], log=2),
           letters.letter(letters.log_range(list(MADE), first=9)), letters.state(list(HELD), log=2)]
REQUESTS = [attach(), ccr(2, 1), aar("10.0.0.1", [VOICE]), str_(), ccr(3, 2), ccr(1, 0, "gw;1;1", None, "IMS", (X,), NETWORK),
            aar(None, [VOICE], prefix=WITHIN),
            base(257, [avp(258, GX), avp(260, avp(266, TGPP) + avp(258, RX))]), base(280), base(282)]
ANSWERS = [message(0x40, 258, GX, [avp(263, "gw;1;1"), avp(268, 2001)]),
           message(0x40, 258, GX, [avp(263, "gw;1;1"), avp(297, avp(266, TGPP) + avp(298, 5065))]), asa()]


class Field(NamedTuple):
    """Where a length or a count stands, how many bytes it has, and of what it is."""
    what: str
    at: int
    size: int


class Claim(NamedTuple):
    """The bytes of a message or a letter in which something claims too much."""
    what: str
    octets: bytes


def claims_of(size):
    """What a field of so many bytes claims: much, and as much as it can."""
    return dict.fromkeys(min(claim, 256**size - 1) for claim in CLAIMS)


def claiming(octets, fields, claim):
    """Bytes in which these fields claim so much, each as much of it as it can."""
    changed = bytearray(octets)
    for field in fields:
        changed[field.at:field.at + field.size] = min(claim, 256**field.size - 1).to_bytes(field.size, "big")
    return bytes(changed)


# ---- letters

class Noting(letters.Reader):
    """A reader of a letter that notes where lengths and counts stand."""

    def __init__(self, frame):
        super().__init__(frame)
        self.fields = []

    def count(self, what, size, least=0, most=None):
        self.fields.append(Field(what, self.at, size))
        return super().count(what, size, least, most)


def fields_of_letter(frame):
    """The lengths and counts of a letter, its own length first."""
    reader = Noting(frame)
    assert letters.judged(reader) == "read"
    return reader.fields


def of_letter(frame):
    """A letter in which one field claims, or all do: the letter's own length with them, or without."""
    own, *others = fields = fields_of_letter(frame)
    for field in fields:
        for claim in claims_of(field.size):
            whole = claiming(frame, [field], claim)
            front = whole[:field.at + field.size + FEW]
            yield Claim(field.what, whole)
            yield Claim(field.what, front if field == own else letters.framed(front[own.size:]))
    for claim in CLAIMS:
        yield Claim("all together", claiming(frame, others, claim))
        yield Claim("all together, the letter's length too", claiming(frame, fields, claim))


def letters_claiming():
    """All such letters."""
    return [claim for frame in LETTERS for claim in of_letter(frame)]


# ---- messages

OWN_LENGTH = Field("bytes of a message", 1, 3)


def avp_lengths(octets, at, end):
    """The lengths of the AVPs of a message or a group, and of those in groups."""
    while at < end:
        code, length = number(octets[at:at + 4]), number(octets[at + 5:at + 8])
        yield Field("bytes of a group" if code in GROUPS else "bytes of an AVP", at + 5, 3)
        if code in GROUPS:
            yield from avp_lengths(octets, at + (12 if octets[at + 4] & 0x80 else 8), at + length)
        at += length + -length % 4


def cut_message(octets, end):
    """A message that ends there, with its length."""
    front = octets[:end]
    return claiming(front, [OWN_LENGTH], len(front))


def of_message(octets):
    """A message in which the length of an AVP claims, or all do."""
    lengths = list(avp_lengths(octets, 20, len(octets)))
    for field in lengths:
        for claim in claims_of(field.size):
            whole = claiming(octets, [field], claim)
            yield Claim(field.what, whole)
            yield Claim(field.what, cut_message(whole, field.at + field.size + FEW))
    for claim in claims_of(3):
        yield Claim("all AVPs together", claiming(octets, lengths, claim))


def of_header(octets):
    """A message whose own length claims, alone or with those of all its AVPs: whole, or its header, or the first bytes of that."""
    lengths = list(avp_lengths(octets, 20, len(octets)))
    for claim in (*claims_of(3), MOST_BYTES, 2**24 - 4):
        whole = claiming(octets, [OWN_LENGTH], claim)
        for front in (whole, whole[:20], whole[:FEW], claiming(whole, lengths, claim)):
            yield Claim(OWN_LENGTH.what, front)


def requests_claiming():
    """All such requests that are cut from a stream by their own lengths, which are good."""
    return [claim for octets in REQUESTS for claim in of_message(octets)]


def messages_claiming():
    """All such messages."""
    others = [claim for octets in ANSWERS for claim in of_message(octets)]
    return requests_claiming() + others + [claim for octets in REQUESTS + ANSWERS for claim in of_header(octets)]
