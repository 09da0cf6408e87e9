#!/usr/bin/env python3
"""Writes random streams, and how a plain model of a site says that they end and what is written.

`random_streams.py TABLES STREAMS EXPECTED` writes the streams, a line of hexadecimal digits each, into the file
STREAMS, and a line for each into EXPECTED: how it ends, and the digits of what is written, if anything is. It prints
how often each thing was reached, and fails where too little was.
"""
import sys

from plain_facts import read_tables
from plain_requests import cut_stream
from plain_site import Site, converse, disconnects
from random_messages import ADDRESSES, AF_SESSIONS, GX_SESSIONS, Draw
from tally import Tally, aimed

STREAMS = 200
LEAST = {
    "closed": 40, "cut": 15, "disconnected": 15, "frame ShortLength": 5, "frame OddLength": 5, "frame TooLong": 5,
    "nothing": 2, "no answer": 10, "goes on behind the end": 5, "nothing written": 5,
    **{f"{name} 2001": 8 for name in ("CCR-I", "CCR-U", "CCR-T", "AAR", "STR", "CER", "DWR", "DPR")},
    **{f"{name} unread {code}": 1 for name in ("CCR", "AAR") for code in (5011, 3008, 5014, 5009, 5005, 5004)},
    "AAR unread 5061": 1, "AAR unread 5062": 1, "AAR 5002": 1, "AAR 5005": 2, "AAR 5063": 1, "AAR 5065": 3,
    "CCR-I 5002": 1, "CCR-U 5002": 2, "CCR-T 5002": 1, "STR 5002": 2, "CCR-I 5140": 1, "CCR-I 5003": 1, "CER 5010": 2,
    "other unread 3007": 1, "other unread 3001": 1,
}


def call(draw):
    """Messages of one call, from its gateway's session to the end, some of them left out."""
    gateway, session, address = draw.one(GX_SESSIONS), draw.one(AF_SESSIONS), draw.one(ADDRESSES)
    attach = draw.ccr(1, gateway)
    for part in attach.parts:
        part.value = address if part.code == 8 else part.value
    late = [attach, draw.one_flow(session, [], 2, draw.one([(), (1,)])), draw.ccr(2, gateway), draw.aar(session)]
    later = [draw.one(late), draw.str_(session), draw.ccr(3, gateway), draw.str_(session), draw.one(late + [attach])]
    kept = [message for message in later if draw.chance(45)]
    return [message.octets() for message in [attach, draw.one_flow(session, address, 1, ())] + kept]


def stream(draw, other):
    """A stream of one message to six, or of none; some end within a message, or with a length that no message has."""
    messages = call(draw) if draw.chance(60) else []
    for _ in range(draw.one([0, 1, 1, 2]) if messages else draw.one([0, 1, 1, 2, 3, 4, 6])):
        messages.insert(draw.random.randrange(len(messages) + 1), other())
    if draw.chance(14):
        messages.insert(draw.random.randrange(len(messages) + 1), draw.dpr().octets())
    return b"".join(messages[:6]) + (draw.bad_end() if draw.chance(33 if messages else 70) else b"")


def drawn(tables, draw, tally):
    """A stream, of which some messages are answered as too few were so far."""
    def other():
        if draw.chance(15):
            return aimed(draw, Site(tables, 0), tally, LEAST)
        return draw.one([draw.message, draw.message, draw.refused])()
    return stream(draw, other)


def count(tally, tables, octets, written, end):
    """Counts what a stream reaches."""
    frames, left = cut_stream(octets)
    last = next((at for at, frame in enumerate(frames) if disconnects(frame)), len(frames))
    site = Site(tables, 0)
    for frame in frames[:last + 1]:
        tally.exchange(frame, site.serve(frame))
    tally[end] += 1
    tally["nothing"] += octets == b""
    tally["nothing written"] += octets != b"" and written == b""
    tally["goes on behind the end"] += last + 1 < len(frames) or last < len(frames) and left is not None


def main(tables_path, streams_path, expected_path):
    """Writes the streams and what they give."""
    tables, tally = read_tables(tables_path), Tally()
    with open(streams_path, "w", encoding="ascii") as streams, open(expected_path, "w", encoding="ascii") as expected:
        for seed in range(STREAMS):
            octets = drawn(tables, Draw(1000 + seed), tally)
            written, end = converse(Site(tables, 0), octets)
            count(tally, tables, octets, written, end)
            streams.write(octets.hex() + "\n")
            expected.write(end + (f" {written.hex()}" if written else "") + "\n")
    tally.tell()
    tally.demand(LEAST)


if __name__ == "__main__":
    main(*sys.argv[1:])
