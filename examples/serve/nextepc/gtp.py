"""GTPv2-C as a serving gateway speaks it (3GPP TS 29.274), so far as nextepc-pgw asks for it, and the filters of a traffic flow template
(TS 24.008, 10.5.6.12).

A message is its type, a TEID, a sequence number and its elements. An element is a triple of its type, its instance and its value: bytes, or
for a bearer context a list of such triples.
"""
import socket
import struct

CREATE_SESSION, DELETE_SESSION, CREATE_BEARER, DELETE_BEARER = 32, 36, 95, 99  # requests; the answer to each has the next number
IMSI, CAUSE, AMBR, EBI, APN, MSISDN, PAA, BEARER_QOS, BEARER_TFT, RAT_TYPE, SERVING_NETWORK, ULI, F_TEID, BEARER_CONTEXT, PDN_TYPE, \
    APN_RESTRICTION, SELECTION_MODE = 1, 2, 72, 73, 71, 76, 79, 80, 84, 82, 83, 86, 87, 93, 99, 127, 128
ACCEPTED = bytes([16, 0])
SGW_USER, SGW_CONTROL = 4, 6  # interface types of S5/S8 (8.22)
PLMN = bytes.fromhex("00f110")  # 001 and 01
COMPONENTS = {0x10: ("remote address", 8), 0x11: ("local address", 8), 0x30: ("protocol", 1), 0x40: ("local port", 2),
              0x50: ("remote port", 2)}


def digits(text):
    """Digits, two in a byte."""
    return bytes(int(text[at + 1 : at + 2] or "f", 16) << 4 | int(text[at]) for at in range(0, len(text), 2))


def f_teid(kind, teid, address):
    """The value of an F-TEID of IPv4."""
    return struct.pack(">BI", 0x80 | kind, teid) + socket.inet_aton(address)


def bearer_qos(qci, priority):
    """The value of a Bearer QoS without bit rates, whose resources others may not take."""
    return bytes([0x40 | priority << 2 | 1, qci]) + bytes(20)


def write_elements(elements):
    """The bytes of elements."""
    written = b""
    for kind, instance, value in elements:
        data = write_elements(value) if isinstance(value, list) else value
        written += struct.pack(">BHB", kind, len(data), instance) + data
    return written


def write_message(kind, teid, sequence, elements):
    """The bytes of a message."""
    body = write_elements(elements)
    return struct.pack(">BBHII", 0x48, kind, 8 + len(body), teid, sequence << 8) + body


def read_elements(data):
    """The elements of bytes."""
    elements = []
    while data:
        kind, length, instance = struct.unpack(">BHB", data[:4])
        value, data = data[4 : 4 + length], data[4 + length :]
        elements.append((kind, instance & 15, read_elements(value) if kind == BEARER_CONTEXT else value))
    return elements


def read_message(data):
    """The type, the TEID, the sequence number and the elements of a message."""
    _flags, kind, _length, teid, word = struct.unpack(">BBHII", data[:12])
    return kind, teid, word >> 8, read_elements(data[12:])


def find(elements, wanted, instance=0):
    """The value of the first element of that type and instance, in groups too; none where there is none."""
    for kind, number, value in elements:
        if (kind, number) == (wanted, instance):
            return value
        found = find(value, wanted, instance) if isinstance(value, list) else None
        if found is not None:
            return found
    return None


def read_filters(template):
    """The packet filters of a traffic flow template: each one's direction, 1 to the terminal and 2 from it, and what it asks for."""
    filters, data = [], template[1:]
    for _ in range(template[0] & 15):
        first, _precedence, length = data[:3]
        part, data, asked = data[3 : 3 + length], data[3 + length :], {}
        while part:
            name, size = COMPONENTS[part[0]]
            value, part = part[1 : 1 + size], part[1 + size :]
            asked[name] = f"{socket.inet_ntoa(value[:4])}/{socket.inet_ntoa(value[4:])}" if size == 8 else int.from_bytes(value, "big")
        filters.append((first >> 4 & 3, asked))
    return filters
