"""Diameter messages as a client writes and shows them (RFC 6733, TS 29.212, TS 29.214), apart from the product.

A message is a tuple: the command's name, whether it is a request, and its AVPs as pairs of a name and a value. A value is a number, a
text, bytes where a text is none, or for a group a list of such pairs.
"""
import socket
import struct

VENDOR = 10415  # 3GPP
GX, RX = 16777238, 16777236

COMMANDS = {  # name: code, application
    "Capabilities-Exchange": (257, 0),
    "Device-Watchdog": (280, 0),
    "Disconnect-Peer": (282, 0),
    "Credit-Control": (272, GX),
    "Re-Auth": (258, GX),
    "AA": (265, RX),
    "Abort-Session": (274, RX),
    "Session-Termination": (275, RX),
}
COMMAND_NAMES = {code: name for name, (code, _) in COMMANDS.items()}

AVPS = {  # name: code, vendor, kind
    "Framed-IP-Address": (8, 0, "ipv4"),
    "Called-Station-Id": (30, 0, "text"),
    "Framed-IPv6-Prefix": (97, 0, "prefix"),
    "Host-IP-Address": (257, 0, "address"),
    "Auth-Application-Id": (258, 0, "number"),
    "Vendor-Specific-Application-Id": (260, 0, "group"),
    "Session-Id": (263, 0, "text"),
    "Origin-Host": (264, 0, "text"),
    "Supported-Vendor-Id": (265, 0, "number"),
    "Vendor-Id": (266, 0, "number"),
    "Firmware-Revision": (267, 0, "number"),
    "Result-Code": (268, 0, "number"),
    "Product-Name": (269, 0, "text"),
    "Disconnect-Cause": (273, 0, "number"),
    "Origin-State-Id": (278, 0, "number"),
    "Destination-Realm": (283, 0, "text"),
    "Re-Auth-Request-Type": (285, 0, "number"),
    "Destination-Host": (293, 0, "text"),
    "Origin-Realm": (296, 0, "text"),
    "Experimental-Result": (297, 0, "group"),
    "Experimental-Result-Code": (298, 0, "number"),
    "CC-Request-Number": (415, 0, "number"),
    "CC-Request-Type": (416, 0, "number"),
    "Subscription-Id": (443, 0, "group"),
    "Subscription-Id-Data": (444, 0, "text"),
    "Subscription-Id-Type": (450, 0, "number"),
    "Abort-Cause": (500, VENDOR, "number"),
    "Flow-Description": (507, VENDOR, "text"),
    "Flow-Number": (509, VENDOR, "number"),
    "Flow-Status": (511, VENDOR, "number"),
    "Flow-Usage": (512, VENDOR, "number"),
    "Max-Requested-Bandwidth-DL": (515, VENDOR, "number"),
    "Max-Requested-Bandwidth-UL": (516, VENDOR, "number"),
    "Media-Component-Description": (517, VENDOR, "group"),
    "Media-Component-Number": (518, VENDOR, "number"),
    "Media-Sub-Component": (519, VENDOR, "group"),
    "Media-Type": (520, VENDOR, "number"),
    "Charging-Rule-Install": (1001, VENDOR, "group"),
    "Charging-Rule-Remove": (1002, VENDOR, "group"),
    "Charging-Rule-Definition": (1003, VENDOR, "group"),
    "Charging-Rule-Name": (1005, VENDOR, "text"),
    "Precedence": (1010, VENDOR, "number"),
    "QoS-Information": (1016, VENDOR, "group"),
    "Guaranteed-Bitrate-DL": (1025, VENDOR, "number"),
    "Guaranteed-Bitrate-UL": (1026, VENDOR, "number"),
    "QoS-Class-Identifier": (1028, VENDOR, "number"),
    "Allocation-Retention-Priority": (1034, VENDOR, "group"),
    "APN-Aggregate-Max-Bitrate-DL": (1040, VENDOR, "number"),
    "APN-Aggregate-Max-Bitrate-UL": (1041, VENDOR, "number"),
    "Priority-Level": (1046, VENDOR, "number"),
    "Pre-emption-Capability": (1047, VENDOR, "number"),
    "Pre-emption-Vulnerability": (1048, VENDOR, "number"),
    "Default-EPS-Bearer-QoS": (1049, VENDOR, "group"),
    "Flow-Information": (1058, VENDOR, "group"),
    "Flow-Direction": (1080, VENDOR, "number"),
}
AVP_NAMES = {(code, vendor): (name, kind) for name, (code, vendor, kind) in AVPS.items()}

MEANINGS = {  # what a number means, by the name of its AVP
    "Result-Code": {2001: "DIAMETER_SUCCESS", 3004: "DIAMETER_TOO_BUSY", 5002: "DIAMETER_UNKNOWN_SESSION_ID",
                    5010: "DIAMETER_NO_COMMON_APPLICATION"},
    "Experimental-Result-Code": {5065: "IP-CAN_SESSION_NOT_AVAILABLE"},
    "Auth-Application-Id": {GX: "Gx", RX: "Rx"},
    "Vendor-Id": {VENDOR: "3GPP"},
    "Disconnect-Cause": {0: "REBOOTING"},
    "Re-Auth-Request-Type": {0: "AUTHORIZE_ONLY"},
    "Abort-Cause": {0: "BEARER_RELEASED"},
    "CC-Request-Type": {1: "INITIAL_REQUEST", 2: "UPDATE_REQUEST", 3: "TERMINATION_REQUEST"},
    "Subscription-Id-Type": {0: "END_USER_E164", 1: "END_USER_IMSI"},
    "Flow-Status": {0: "ENABLED-UPLINK", 1: "ENABLED-DOWNLINK", 2: "ENABLED", 3: "DISABLED", 4: "REMOVED"},
    "Flow-Usage": {0: "NO_INFORMATION", 1: "RTCP"},
    "Media-Type": {0: "AUDIO"},
    "QoS-Class-Identifier": {1: "QCI_1", 5: "QCI_5"},
    "Pre-emption-Capability": {0: "PRE-EMPTION_CAPABILITY_ENABLED", 1: "PRE-EMPTION_CAPABILITY_DISABLED"},
    "Pre-emption-Vulnerability": {0: "PRE-EMPTION_VULNERABILITY_ENABLED", 1: "PRE-EMPTION_VULNERABILITY_DISABLED"},
}


def write_prefix(text):
    """The value of a Framed-IPv6-Prefix (RFC 3162, 2.3)."""
    address, bits = text.split("/")
    return bytes([0, int(bits)]) + socket.inet_pton(socket.AF_INET6, address)[:-(-int(bits) // 8)]


def read_prefix(data):
    """The prefix as a text."""
    return f"{socket.inet_ntop(socket.AF_INET6, data[2:].ljust(16, bytes(1)))}/{data[1]}"


def write_avps(avps):
    """The bytes of AVPs."""
    written = b""
    for name, value in avps:
        code, vendor, kind = AVPS[name]
        if kind == "number":
            data = struct.pack(">I", value)
        elif kind == "ipv4":
            data = socket.inet_aton(value)
        elif kind == "address":
            data = b"\0\1" + socket.inet_aton(value)
        elif kind == "prefix":
            data = write_prefix(value)
        elif kind == "group":
            data = write_avps(value)
        else:
            data = value if isinstance(value, bytes) else value.encode()
        vendor_id = struct.pack(">I", vendor) if vendor else b""
        flags = 0xC0 if vendor else 0x40
        length = 8 + len(vendor_id) + len(data)
        written += struct.pack(">II", code, flags << 24 | length) + vendor_id + data + bytes(-length % 4)
    return written


def write_message(name, is_request, avps, ids=(1, 1), is_repeated=False):
    """The bytes of a message; ids are its Hop-by-Hop and End-to-End Identifiers. One that is repeated has the T flag."""
    code, application = COMMANDS[name]
    body = write_avps(avps)
    flags = (0x80 if is_request else 0) | (0x40 if application else 0) | (0x10 if is_repeated else 0)
    return struct.pack(">IIIII", 1 << 24 | 20 + len(body), flags << 24 | code, application, *ids) + body


def read_avps(data):
    """The AVPs of bytes. One that has no name here is an error: the client knows all that the product writes."""
    avps = []
    while data:
        code, word = struct.unpack(">II", data[:8])
        length, head, vendor = word & 0xFFFFFF, 8, 0
        if word >> 31:
            vendor, head = struct.unpack(">I", data[8:12])[0], 12
        name, kind = AVP_NAMES[code, vendor]
        value, data = data[head:length], data[length + -length % 4:]
        if kind == "number":
            value = struct.unpack(">I", value)[0]
        elif kind in ("ipv4", "address"):
            value = socket.inet_ntoa(value[-4:])
        elif kind == "prefix":
            value = read_prefix(value)
        elif kind == "group":
            value = read_avps(value)
        else:
            value = value.decode()
        avps.append((name, value))
    return avps


def show_avps(avps, indent):
    """The lines of AVPs, each number with what it means."""
    lines = []
    for name, value in avps:
        if isinstance(value, list):
            lines += [f"{indent}{name}", *show_avps(value, indent + "  ")]
        else:
            meaning = MEANINGS.get(name, {}).get(value)
            lines.append(f"{indent}{name}: {f'{meaning} ({value})' if meaning else value}")
    return lines


def find(avps, name):
    """The value of the first AVP of that name, in groups too."""
    for key, value in avps:
        if key == name:
            return value
        if isinstance(value, list):
            found = find(value, name)
            if found is not None:
                return found
    return None


class Connection:
    """A client's connection to a site, over which it sends and reads whole messages."""

    def __init__(self, host, port, seconds=30.0):
        self.host = host
        self.stream = socket.create_connection(("127.0.0.1", port), seconds)
        self.stream.settimeout(seconds)
        self.ids = 0

    def origin(self):
        """The AVPs that name the client."""
        return [("Origin-Host", self.host), ("Origin-Realm", "example")]

    def send(self, name, is_request, avps, ids=None, is_repeated=False):
        """Sends a message; a request has identifiers that no other request of the connection has, unless it repeats one."""
        if ids is None:
            self.ids += 1
            ids = (self.ids, self.ids)
        self.stream.sendall(write_message(name, is_request, avps, ids, is_repeated))

    def read_exactly(self, count):
        """So many bytes, or fewer at the end of the stream."""
        data = b""
        while len(data) < count:
            piece = self.stream.recv(count - len(data))
            if not piece:
                break
            data += piece
        return data

    def read(self):
        """The next message: its name, whether it is a request, its AVPs and its identifiers; None at the end of the stream."""
        head = self.read_exactly(20)
        if len(head) < 20:
            return None
        first, second, _application, hop, end = struct.unpack(">IIIII", head)
        body = self.read_exactly((first & 0xFFFFFF) - 20)
        return COMMAND_NAMES[second & 0xFFFFFF], bool(second >> 31), read_avps(body), (hop, end)

    def close(self):
        """Ends the connection."""
        self.stream.close()
