#!/usr/bin/env python3
"""The messages that tests of connections send, and the answers that they expect byte for byte, as constants of Rust.

`connection_messages.py FILE` fails where the file is another one; with `--write` it writes it. An AVP has a line of its own.
"""
import sys

import plain_answers
from messages import BASE, GX, IN, OUT, TGPP, X, aar, avp, base, ccr, component, flow, ip, message, str_
from plain_requests import read_header

HEAD = "//! Messages of a gateway and of an application function, and answers of a site. `oracle/connection_messages.py` writes them.\n"
ORIGIN = [avp(264, "gw"), avp(296, "r")]
NODE = [avp(257, b"\0\1" + ip("127.0.0.1")), avp(266, 0), avp(269, "gateway")]
INITIAL = ccr(1, 0, "gw;1;1", "10.0.0.1", "IMS", (X,))


def push_answer(code):
    """An answer to a re-authorisation request of the session (TS 29.212, 5.6.5)."""
    return message(0x40, 258, GX, [avp(263, "gw;1;1"), avp(268, code)] + ORIGIN)


MESSAGES = [
    ("EXCHANGE", "A capabilities exchange of the host `gw` under Gx (RFC 6733, 5.3.1).", base(257, NODE + [avp(258, GX)])),
    ("OTHER_EXCHANGE", "The same under an application that is not served.", base(257, NODE + [avp(258, 4)])),
    ("WATCHDOG", "A watchdog request of the same host (5.5.1).", base(280)),
    ("WATCHDOG_ANSWER", "An answer to one (5.5.2).", message(0, 280, BASE, ORIGIN)),
    ("WATCHDOG_DONE", "The answer of a site `s0` to that request: 2001.",
     plain_answers.base_answer(0, read_header(base(280)), 2001)),
    ("DISCONNECT", "A request for the end of the connection (5.4.1).", base(282)),
    ("INITIAL", "The initial request of the session `gw;1;1` at 10.0.0.1 (TS 29.212, 5.6.2).", INITIAL),
    ("CALL", "The AA request of a call of 10.0.0.1, of a flow of audio (TS 29.214, 5.6.1).",
     aar("10.0.0.1", [component(1, [flow(1, [IN, OUT])], media=0, up=41000, down=80000)])),
    ("RELEASE", "The end of that call (5.6.4).", str_()),
    ("PUSH_REFUSED", "An answer to a re-authorisation request of the session, for a failure: 5012 (TS 29.212, 5.6.5).",
     push_answer(5012)),
    ("PUSH_DONE", "An answer to one that was obeyed: 2001.", push_answer(2001)),
    ("PUSH_UNAVAILABLE", "One for a failure that an Experimental-Result alone names: 5065 of 3GPP (RFC 6733, 7.6).",
     message(0x40, 258, GX, [avp(263, "gw;1;1"), avp(297, avp(266, TGPP) + avp(298, 5065))])),
    ("PUSH_NAMELESS", "One that has no Session-Id, for a failure: 5012.", message(0x40, 258, GX, [avp(268, 5012)])),
]


def letter(octet):
    """An octet in a byte string of Rust."""
    char = chr(octet)
    return char if char.isascii() and char.isprintable() and char not in '"\\' else f"\\x{octet:02x}"


def parts(octets):
    """The header of a message, and each of its AVPs."""
    yield octets[:20]
    at = 20
    while at < len(octets):
        length = int.from_bytes(octets[at + 5:at + 8], "big")
        yield octets[at:at + length + -length % 4]
        at += length + -length % 4


def constant(name, meaning, octets):
    """A constant of Rust, with its documentation."""
    lines = "\\\n    ".join("".join(map(letter, part)) for part in parts(octets))
    return f'/// {meaning}\npub const {name}: &[u8] = b"\\\n    {lines}";\n'


def main(path, *options):
    """Compares the file, or writes it."""
    text = "\n".join([HEAD] + [constant(*message) for message in MESSAGES])
    if options:
        with open(path, "w", encoding="utf-8") as file:
            file.write(text)
        return
    with open(path, encoding="utf-8") as file:
        if file.read() != text:
            sys.exit(f"{path} differs from what connection_messages.py writes")


if __name__ == "__main__":
    main(*sys.argv[1:])
