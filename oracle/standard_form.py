"""Answers in the standards' form, by the part of docs/MESSAGES.md on that: a plain model, apart from the product."""
import re

from failed_avps import UNSUPPORTED, failed_avp, has_unsupported
from grammars import cut, try_cut
from messages import GX, TGPP, avp, tgpp
from plain_requests import (BASE, CCR, CER, MOST_BYTES, SERVED, STRICT_TABLES, Refused, cut_avps, cut_stream, judge_header, read_header,
                            read_request)
from plain_site import run_script

PROXY_INFO, FIRMWARE_REVISION, SUPPORTED_VENDOR_ID, RESULT_CODE, DESTINATION_REALM = 284, 267, 265, 268, 283
SESSION_ID, ERROR = 263, 0x20
MESSAGE = (264, 296, 268)  # Origin-Host, Origin-Realm and Result-Code, which an answer-message has to have (RFC 6733, 7.2)
SUPPORTED = avp(SUPPORTED_VENDOR_ID, TGPP) + avp(FIRMWARE_REVISION, 1, flags=0)
NODE = avp(257, b"\0\1\x7f\0\0\1") + avp(266, 0) + avp(269, "pcrf", flags=0)  # as in every other answer to an exchange of capabilities
REALM, REALM_NOT_SERVED = b"r", 3003
GROUPS = (1001, 1003, 1058)
ADDRESS = r"!?(?:any|assigned|[0-9a-fA-F.:/]+)(?: [0-9,-]+)?"
FILTER = re.compile(rf"permit (in|out) (ip|[0-9]+) from ({ADDRESS}) to ({ADDRESS})((?: [a-z].*)?)", re.S)


def turned(text):
    """A filter as one of packets to the terminal, and its Flow-Direction."""
    direction = 2 if text.startswith("permit in ") else 1
    parts = FILTER.fullmatch(text)
    if parts and direction == 2:
        _, protocol, source, destination, options = parts.groups()
        text = f"permit out {protocol} from {destination} to {source}{options}"
    return text, direction


def spelled(one, value):
    """An AVP with this value."""
    return avp(one.code, value, one.vendor or None, one.flags & 0x60)


def with_directions(avps):
    """The AVPs of an answer, with filters to the terminal."""
    written = []
    for one in avps:
        if one.vendor == TGPP and one.code == 1058:
            text, direction = turned(cut(one.value)[0].value.decode("latin-1"))
            written.append(spelled(one, tgpp(507, text.encode("latin-1")) + tgpp(1080, direction, 0)))
        elif one.vendor == TGPP and one.code in GROUPS:
            written.append(spelled(one, with_directions(cut(one.value))))
        else:
            written.append(spelled(one, one.value))
    return b"".join(written)


def number(avps, code):
    """The number that stands first at a code of the base protocol, None where none can be read."""
    values = [one.value for one in avps if one.code == code and not one.vendor]
    return int.from_bytes(values[0], "big") if values and len(values[0]) == 4 else None


def is_for_next(header):
    """Whether a request is for the next node: one of the base protocol, whose answers have no Session-Id."""
    return header.application == BASE and header.command in SERVED[BASE]


def is_for_another(header, avps):
    """Whether a request is for another realm than that of the sites of scripts."""
    realms = [one.value for one in avps if (one.code, one.vendor) == (DESTINATION_REALM, 0)]
    return bool(realms) and not is_for_next(header) and 1 <= len(realms[0]) <= 255 and realms[0].lower() != REALM


def read_strictly(request):
    """A request as its table has it, or the first cause to refuse it: it is for the site's realm, and, if it is one that is served, has no
    AVP with M that isn't recognized; and its Session-Id is UTF-8."""
    header = read_header(request)
    judge_header(header)
    if is_for_another(header, cut_avps(request[20:])):
        raise Refused(REALM_NOT_SERVED)
    if has_unsupported(request):
        raise Refused(UNSUPPORTED)
    return read_request(request, STRICT_TABLES)


def unread(request):
    """By which code a request is refused before a site looks at it, None if it isn't."""
    try:
        read_strictly(request)
    except Refused as refused:
        return refused.code
    return None


def repeated(header, avps):
    """The AVPs of an answer that refuses a request unread, without a Session-Id that the answer can't have."""
    def stays(one):
        return one.code != SESSION_ID or not is_for_next(header) and is_utf8(one.value)
    return [one for one in avps if stays(one)]


def is_utf8(octets):
    """Whether bytes are UTF-8."""
    try:
        octets.decode("utf-8")
    except UnicodeDecodeError:
        return False
    return True


def refused(request, answer):
    """The E bit and the AVPs of an answer that refuses a request unread: an answer-message where a Session-Id lacks that its command's
    answer has to have."""
    header, avps = read_header(request), cut(answer[20:])
    avps = repeated(header, avps)
    if is_for_next(header) or any(one.code == SESSION_ID for one in avps):
        return answer[4] & ERROR, avps
    return ERROR, [one for one in avps if one.code in MESSAGE]


def besides(request, is_message):
    """What an answer has besides its own AVPs, by their names. One may be an answer-message."""
    header, asked = read_header(request), try_cut(request[20:]) or []
    parts, code = {}, unread(request)
    if code is None:
        if header.command == CER:
            parts["Supported-Vendor-Id and Firmware-Revision"] = SUPPORTED
    elif not is_message:
        if (header.command, header.application) == (CCR, GX):
            count, kind = number(asked, 415) or 0, number(asked, 416)
            kind = kind if kind in (1, 2, 3, 4) else 1 if count == 0 else 2
            parts["CC-Request-Type and -Number"] = avp(416, kind) + avp(415, count)
        elif (header.command, header.application) == (CER, BASE):
            parts["what a node is"] = NODE + SUPPORTED
    ways = [avp(one.code, one.value, one.vendor if one.flags & 0x80 else None, one.flags & 0x60) for one in asked if is_proxy_info(one)]
    if ways:
        parts["Proxy-Info"] = b"".join(ways)
    return parts


def is_proxy_info(one):
    """Whether an AVP is a Proxy-Info; vendor 0 counts as none."""
    return one.code == PROXY_INFO and not one.vendor


def in_standard_form(request, answer, seen):
    """An answer to a request, in the standards' form."""
    error, avps = refused(request, answer) if unread(request) is not None else (0, cut(answer[20:]))
    seen["answer-message for want of a Session-Id"] += error > answer[4] & ERROR
    parts = besides(request, error)
    own = with_directions(avps)
    more = b"".join(parts.values())
    if 20 + len(own) + len(more) > MOST_BYTES:
        more, parts = b"", {"too long": True}
    seen.update(parts.keys())
    body = own + more
    code = number(cut(answer[20:]), RESULT_CODE)
    seen[code] += 1
    failed = failed_avp(request, code)
    if failed and 20 + len(body) + len(failed) <= MOST_BYTES:
        seen["Failed-AVP"] += 1
        body += failed
    return answer[:1] + (20 + len(body)).to_bytes(3, "big") + bytes([answer[4] | error]) + answer[5:20] + body


def run_in_standard_form(tables, text, seen):
    """What a script prints, and of each message that is answered the message and its answer."""
    lines = [line for line in text.split("\n") if line and not line.startswith("#")]
    printed, prints, pairs = iter(run_script(tables, lines, read_strictly)), [], []
    count = int(lines[0].split(" ")[1])
    for line in lines[1:]:
        words = line.split(" ")
        if words[0] != "msg" or int(words[1]) >= count:
            continue
        for request in cut_stream(bytes.fromhex(words[2]))[0]:
            while not (told := next(printed)).startswith(("answer ", "no answer")):
                prints.append(told)
            if told.startswith("answer "):
                answer = in_standard_form(request, bytes.fromhex(told[7:]), seen)
                pairs.append((request, answer))
                told = f"answer {answer.hex()}"
            prints.append(told)
    return prints + list(printed), pairs
