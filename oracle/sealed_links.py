"""The layer of docs/LETTERS.md below letters, by that page alone: greetings, proofs and records, with hmac and hashlib of Python.

usage: sealed_links.py          the worked example of the page
       sealed_links.py --rows   what crates/peer_lines/src/sealed/tests/rows.rt has
"""
import hashlib
import hmac
import struct
import sys

MARK = b"pcr\x01"
DIALLER, LISTENER, RECORDS = 1, 2, 3
MOST = 16_384  # bytes of a piece
CODE = 32


def code(key, message):
    """HMAC-SHA-256."""
    return hmac.new(key, message, hashlib.sha256).digest()


def greeting(site, challenge):
    """What an end says first."""
    return MARK + bytes([site]) + challenge


def said(what, dialler, listener):
    """What a proof, or the link's key, is over; an end is its site and its challenge."""
    return bytes([what, dialler[0], listener[0]]) + dialler[1] + listener[1]


def proof(secret, side, dialler, listener):
    """The proof of a side."""
    return code(secret, said(side, dialler, listener))


def link_key(secret, dialler, listener):
    """The key of a link's records."""
    return code(secret, said(RECORDS, dialler, listener))


def record(key, side, position, piece):
    """The record of a piece."""
    return struct.pack(">H", len(piece)) + piece + code(key, bytes([side]) + struct.pack(">Q", position) + piece)


def records(key, side, position, data):
    """Bytes as records, each as long as may be."""
    pieces = [data[at : at + MOST] for at in range(0, len(data), MOST)]
    return b"".join(record(key, side, position + count, piece) for count, piece in enumerate(pieces))


def opened(key, side, position, stream):
    """What is read of a stream, and whether it ends between records."""
    data = b""
    while stream:
        length = struct.unpack(">H", stream[:2])[0] if len(stream) > 1 else 0
        piece, own = stream[2 : 2 + length], stream[2 + length : 2 + length + CODE]
        if not 0 < length <= MOST or not hmac.compare_digest(own, code(key, bytes([side]) + struct.pack(">Q", position) + piece)):
            return data, False
        data, stream, position = data + piece, stream[2 + length + CODE :], position + 1
    return data, True


# The worked example: site 0 dials site 1.
SECRET = bytes(range(32))
DIALLING = (0, bytes(range(0x40, 0x60)))
LISTENING = (1, bytes(range(0x80, 0xA0)))
END_OF_SESSION = bytes.fromhex(
    "00000030" "03" "00000007" "00" "0001" "01" "0000000000000001" "00000001"
    "0000000000000002" "00" "00000005" "01" "0006" "67773b313b31" "00000001" "01")
ACKNOWLEDGEMENT = bytes.fromhex("00000014" "03" "00000007" "01" "0001" "03" "00" "0001" "0000000000000001")


def example():
    """Each line of the example with its name."""
    key = link_key(SECRET, DIALLING, LISTENING)
    return [
        ("secret", SECRET),
        ("dialler's greeting", greeting(*DIALLING)),
        ("listener's greeting", greeting(*LISTENING)),
        ("listener's proof", proof(SECRET, LISTENER, DIALLING, LISTENING)),
        ("dialler's proof", proof(SECRET, DIALLER, DIALLING, LISTENING)),
        ("key of the records", key),
        ("dialler's first record", record(key, DIALLER, 0, END_OF_SESSION)),
        ("listener's first record", record(key, LISTENER, 0, ACKNOWLEDGEMENT)),
    ]


# RFC 4231, 4.2 to 4.5, 4.7 and 4.8: key, data and HMAC-SHA-256. (That of 4.6 is cut off.)
CODES = [
    ("0b" * 20, b"Hi There".hex(), "b0344c61d8db38535ca8afceaf0bf12b881dc200c9833da726e9376c2e32cff7"),
    (b"Jefe".hex(), b"what do ya want for nothing?".hex(), "5bdcc146bf60754e6a042426089575c75a003f089d2739839dec58b964ec3843"),
    ("aa" * 20, "dd" * 50, "773ea91e36800e46854db8ebd09181a72959098b3ef8c122d9635514ced565fe"),
    (bytes(range(1, 26)).hex(), "cd" * 50, "82558a389a443c0ea4cc819899f2083a85f0faa3e578f8077a2e3ff46729665b"),
    ("aa" * 131, b"Test Using Larger Than Block-Size Key - Hash Key First".hex(),
     "60e431591ee0b67f0d8a26aacbf5b77f8e0bc6213728c5140546040f0ee37f54"),
    ("aa" * 131, (b"This is a test using a larger than block-size key and a larger than block-size data. The key needs to be hashed "
                  b"before being used by the HMAC algorithm.").hex(), "9b09ffa71b942fcb27635fbcd5b0e944bfdc63644f0713938a7f51535c3a35e2"),
]


def rows():
    """The lines of the tests' rows."""
    yield "//! What `oracle/sealed_links.py` writes: the vectors of RFC 4231, and the worked example of docs/LETTERS.md."
    yield ""
    yield "/// Keys, messages and their codes (RFC 4231, 4.2 to 4.5, 4.7 and 4.8)."
    yield f"pub const CODES: [(&str, &str, &str); {len(CODES)}] = ["
    for row in CODES:
        yield "    ("
        yield from (f'        "{it}",' for it in row)
        yield "    ),"
    yield "];"
    names = [name.replace("'s", "").replace(" first ", " ").replace(" ", "_").upper() for name, _ in example()]
    for (name, data), word in zip([*example(), ("letter of the dialler", END_OF_SESSION), ("letter of the listener", ACKNOWLEDGEMENT)],
                                  [*names, "END_OF_SESSION", "ACKNOWLEDGEMENT"]):
        if word == "KEY_OF_THE_RECORDS":
            continue
        yield ""
        yield f"/// The {name}."
        line = f'pub const {word}: &str = "{data.hex()}";'
        if len(line) <= 100:
            yield line
        else:
            yield f"pub const {word}: &str ="
            yield f'    "{data.hex()}";'


def main(words):
    """Prints the example, in lines of 32 bytes, or the rows of the tests."""
    if words == ["--rows"]:
        print("\n".join(rows()))
        return
    for name, data in example():
        print(f"{name}")
        for at in range(0, len(data), 32):
            print(f"    {data[at : at + 32].hex()}")


if __name__ == "__main__":
    main(sys.argv[1:])
