#!/usr/bin/env python3
"""Writes streams that show one thing each, all written out by hand; `fixed_streams.py DATA` writes them into the folder DATA.

Each stands here with how it ends and what is answered, by hand too, which is compared with what the plain model says. A message
is its length, flags and command, the application, two identifiers, and its AVPs. The site is `s0` of the realm `r`, with the
tables of one access point that has a name alone. In the file each stream stands twice: it comes whole, and then in small pieces.
"""
import os
import sys

from plain_facts import read_tables
from plain_site import Site, converse

TABLES = "single-access-point.toml"

# Origin-Host `gw` and Origin-Realm `r`; and `s0` and `r`.
FROM = "00000108 4000000a 67770000 00000128 40000009 72000000"
TO = "00000108 4000000a 73300000 00000128 40000009 72000000"
IDS = "00000000 00000003 00000004"
DONE = "0000010c 4000000c 000007d1"

# A Device-Watchdog-Request, what is answered, and both with P; a Disconnect-Peer-Request, and what is answered.
WATCHDOG, WATCHED = f"0100002c 80000118 {IDS} {FROM}", f"01000038 00000118 {IDS} {DONE} {TO}"
PROXIED, ANSWERED = f"0100002c c0000118 {IDS} {FROM}", f"01000038 40000118 {IDS} {DONE} {TO}"
LEAVE, LEFT = f"0100002c 8000011a {IDS} {FROM}", f"01000038 0000011a {IDS} {DONE} {TO}"

# A Re-Auth-Answer of Gx: Session-Id `gw;1;1`, and success. And one of its Experimental-Result alone.
TOLD = f"01000030 40000102 01000016 00000003 00000004 00000107 4000000e 67773b31 3b310000 {DONE}"
REFUSED_TELLING = ("01000044 40000102 01000016 00000003 00000004 00000107 4000000e 67773b31 3b310000 "
                   "00000129 40000020 0000010a 4000000c 000028af 0000012a 4000000c 000013c9")

# An Abort-Session-Answer of Rx: Session-Id `af;1`, and success.
ABORTED = f"0100002c 40000112 01000014 00000007 00000008 00000107 4000000c 61663b31 {DONE}"

ENDS = [
    ("closed", [WATCHDOG], [WATCHED]),
    ("closed", [PROXIED], [ANSWERED]),
    ("disconnected", [LEAVE], [LEFT]),
    ("disconnected", [WATCHDOG, LEAVE, WATCHDOG], [WATCHED, LEFT]),
    # Lengths that no message has.
    ("frame OddLength", [f"01000016 80000118 {IDS}"], []),
    ("frame ShortLength", [f"01000010 80000118 {IDS}"], []),
    ("frame TooLong", [f"01010000 80000118 {IDS}"], []),
    # An answer of the peer's gets none.
    ("closed", [TOLD, WATCHDOG], [WATCHED]),
    ("closed", [REFUSED_TELLING, WATCHDOG], [WATCHED]),
    ("closed", [ABORTED, WATCHDOG], [WATCHED]),
]

# How many bytes come of two watchdogs, where the end comes within the second.
CUTS = (45, 64, 87)

# Host-IP-Address 127.0.0.1, Vendor-Id 0, Product-Name `pcrf` without M, and a Vendor-Specific-Application-Id of 3GPP for Gx and
# one for Rx.
NODE = ("00000101 4000000e 00017f00 00010000 0000010a 4000000c 00000000 0000010d 0000000c 70637266 "
        "00000104 40000020 0000010a 4000000c 000028af 00000102 4000000c 01000016 "
        "00000104 40000020 0000010a 4000000c 000028af 00000102 4000000c 01000014")

# Capabilities exchanges of `gw` that advertise these, and the Result-Code.
EXCHANGES = [
    # Gx alone.
    ("01000038", "00000102 4000000c 01000016", "000007d1"),
    # Rx of 3GPP.
    ("0100004c", "00000104 40000020 0000010a 4000000c 000028af 00000102 4000000c 01000014", "000007d1"),
    # What relays advertise.
    ("01000038", "00000102 4000000c ffffffff", "000007d1"),
    # Another application, and then Gx.
    ("01000044", "00000102 4000000c 00000004 00000102 4000000c 01000016", "000007d1"),
    # Another alone: DIAMETER_NO_COMMON_APPLICATION.
    ("01000038", "00000102 4000000c 00000004", "00001392"),
    # None.
    ("0100002c", "", "00001392"),
]

# Requests that lack something or say it badly: length, flags and command, the AVPs, and the code of the refusal.
REFUSED = [
    # No Origin-Realm, also where an application is bad too.
    ("01000020 80000118", "00000108 4000000a 67770000", 5005),
    ("0100002c 80000101", "00000108 4000000a 67770000 00000102 4000000b 01000000", 5005),
    # Two Origin-Hosts, and an empty one.
    ("01000038 8000011a", "00000108 4000000a 67770000 00000108 4000000a 67770000 00000128 40000009 72000000", 5009),
    ("01000028 80000118", "00000108 40000008 00000128 40000009 72000000", 5004),
    # An application of three bytes, alone and of a vendor.
    ("01000038 80000101", f"{FROM} 00000102 4000000b 01000000", 5014),
    ("01000040 80000101", f"{FROM} 00000104 40000014 00000102 4000000b 01000000", 5014),
    # A vendor's that runs past its group.
    ("0100003c 80000101", f"{FROM} 00000104 40000010 00000102 4000000c", 5014),
    # A watchdog has no applications, so that a bad one is passed over; but it has an Origin-Realm.
    ("0100002c 80000118", "00000108 4000000a 67770000 00000102 4000000b 01000000", 5005),
]

GATEWAY = "01000016 00000001 00000002 00000107 4000000e 67773b31 3b310000"
CALLER = "01000014 00000005 00000006 00000107 4000000c 61663b31"
# The initial request of `gw;1;1`, which is granted.
ATTACH = (f"010000c8 c0000110 {GATEWAY} 00000108 4000000a 67770000 00000128 40000009 72000000 00000102 4000000c 01000016 "
          "000001a0 4000000c 00000001 0000019f 4000000c 00000000 "
          "000001bb 4000002c 000001c2 4000000c 00000001 000001bc 40000017 30303130 31303030 30303030 30303100 "
          "000001bb 40000024 000001c2 4000000c 00000000 000001bc 40000010 31353535 30303031 "
          "00000008 4000000c 0a000001 0000001e 4000000b 696d7300")
ATTACHED = (f"0100006c 40000110 {GATEWAY} 00000102 4000000c 01000016 {TO} {DONE} "
            "000001a0 4000000c 00000001 0000019f 4000000c 00000000")
# An AA request of `af;1` with the session's address, which is done; and with an address that no session has, to which it would
# be bound.
CALL = f"01000050 c0000109 {CALLER} 00000102 4000000c 01000014 00000108 4000000a 61660000 00000128 40000009 72000000 " \
       "00000008 4000000c 0a000001"
SET_UP = f"01000050 40000109 {CALLER} 00000102 4000000c 01000014 {TO} {DONE}"
AWAY = CALL[:-8] + "0a090909"
# The same with a Framed-IPv6-Prefix of 64 bits in place of the address; and the call with one of 128 bits that it has, and with a
# shorter one.
REACHED = ATTACH.replace("010000c8", "010000d0").replace("00000008 4000000c 0a000001",
                                                         "00000061 40000012 00402001 0db80000 00010000")
CALL_WITHIN = CALL.replace("01000050", "01000060").replace("00000008 4000000c 0a000001",
                                                           "00000061 4000001a 00802001 0db80000 00010000 00000000 00050000")
CALL_ABOVE = CALL.replace("01000050", "01000058").replace("00000008 4000000c 0a000001", "00000061 40000011 00382001 0db80000 00000000")
NOT_BOUND = (f"01000064 40000109 {CALLER} 00000102 4000000c 01000014 {TO} "
             "00000129 40000020 0000010a 4000000c 000028af 0000012a 4000000c 000013c9")
# A session termination request of `af;2`, which isn't known.
UNKNOWN = ("01000038 c0000113 01000014 00000005 00000006 00000107 4000000c 61663b32 "
           "00000108 4000000a 61660000 00000128 40000009 72000000")
NOT_KNOWN = f"01000044 40000113 01000014 00000005 00000006 00000107 4000000c 61663b32 {TO} 0000010c 4000000c 0000138a"


def octets(*parts):
    """The bytes that words of digits spell."""
    return bytes.fromhex("".join(parts).replace(" ", ""))


def streams():
    """Each stream, how it ends, and what is answered."""
    for end, asked, told in ENDS:
        yield octets(*asked), end, octets(*told)
    for count in CUTS:
        yield octets(WATCHDOG, WATCHDOG)[:count], "cut", octets(WATCHED)
    for length, advertised, code in EXCHANGES:
        told = f"010000a0 00000101 {IDS} 0000010c 4000000c {code} {TO} {NODE}"
        yield octets(f"{length} 80000101 {IDS} {FROM} {advertised}"), "closed", octets(told)
    for head, avps, code in REFUSED:
        told = f"01000038 00{head[-6:]} {IDS} {TO} 0000010c 4000000c {code:08x}"
        yield octets(f"{head} {IDS} {avps}"), "closed", octets(told)
    yield (octets(ATTACH, CALL, AWAY, UNKNOWN), "closed", octets(ATTACHED, SET_UP, NOT_BOUND, NOT_KNOWN))
    yield (octets(REACHED, CALL, CALL_ABOVE, CALL_WITHIN), "closed", octets(ATTACHED, NOT_BOUND, NOT_BOUND, SET_UP))


def main(folder):
    """Writes the file, where the model says of each stream what is written out by hand."""
    tables, lines = read_tables(os.path.join(folder, TABLES)), []
    for stream, end, told in streams():
        written, ended = converse(Site(tables, 0), stream)
        assert (ended, written) == (end, told), f"the model says of {stream.hex()}: {ended} {written.hex()}"
        lines += [stream.hex()] * 2
    with open(os.path.join(folder, "fixed.streams"), "w", encoding="ascii") as file:
        file.write("\n".join(lines) + "\n")


if __name__ == "__main__":
    main(*sys.argv[1:])
