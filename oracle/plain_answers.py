"""Writing the answers of a site: a plain model, apart from the product.

docs/MESSAGES.md has the AVPs of each in their order.
"""
from messages import avp, message, result, tgpp
from plain_requests import AAR, CCR, CER, GX, RX, STR, TGPP, first

SUCCESS = 2001
RAR, ASR = 258, 274
NAMED_APPLICATION = {(CCR, GX), (AAR, RX)}


def names(site):
    """Origin-Host and Origin-Realm of a site."""
    return [avp(264, f"s{site}"), avp(296, "r")]


def answer(header, avps, code):
    """The answer to a request with a header: its command, application, identifiers and P, and E with codes of 3000."""
    flags = (0x40 if header.is_proxiable else 0) | (0x20 if 3000 <= code < 4000 else 0)
    return message(flags, header.command, header.application, avps, header.hop_by_hop, header.end_to_end)


def refusal(site, header, code, session):
    """The answer to a request that was not read."""
    avps = [avp(263, session)] if session is not None else []
    if 5000 <= code < 6000 and (header.command, header.application) in NAMED_APPLICATION:
        avps.append(avp(258, header.application))
    return answer(header, avps + names(site) + [result(code)], code)


def priority(row):
    """Allocation-Retention-Priority (TS 29.212, 5.3.32)."""
    parts = [tgpp(1046, row["priority"], 0), tgpp(1047, row["capability"], 0), tgpp(1048, row["vulnerability"], 0)]
    return tgpp(1034, b"".join(parts), 0)


def definition(rule):
    """A Charging-Rule-Definition (TS 29.212, 5.3.4). Classes 1 to 4 are guaranteed their greatest rates."""
    quality = [tgpp(1028, rule.qci), tgpp(516, rule.max_ul), tgpp(515, rule.max_dl)]
    if rule.qci <= 4:
        quality += [tgpp(1026, rule.max_ul), tgpp(1025, rule.max_dl)]
    quality.append(priority(rule._asdict()))
    parts = [tgpp(1005, rule.name)] + [tgpp(1058, tgpp(507, text), 0) for text in rule.filters]
    parts += [tgpp(511, rule.status), tgpp(1016, b"".join(quality)), tgpp(1010, rule.precedence)]
    return tgpp(1003, b"".join(parts))


def entries_avps(entries):
    """Charging-Rule-Remove and Charging-Rule-Install, each where it has a rule."""
    removed = [tgpp(1005, name) for name, rule in entries if rule is None]
    installed = [definition(rule) for name, rule in entries if rule is not None]
    return [tgpp(code, b"".join(parts)) for code, parts in ((1002, removed), (1001, installed)) if parts]


def quality_avps(default):
    """QoS-Information and Default-EPS-Bearer-QoS, where the access point has a default."""
    if default is None:
        return []
    most = tgpp(1041, default["ambr_ul"], 0) + tgpp(1040, default["ambr_dl"], 0)
    return [tgpp(1016, most), tgpp(1049, tgpp(1028, default["qci"]) + priority(default), 0)]


def cca(site, header, values, code, entries=(), default=None):
    """The answer to a credit control request that was read."""
    avps = [avp(263, first(values, "session")), avp(258, GX)] + names(site)
    avps += [result(code), avp(416, first(values, "kind")), avp(415, first(values, "number"))]
    return answer(header, avps + entries_avps(entries) + quality_avps(default), code)


def rar(site, session, host, realm, entries):
    """The re-authorisation request of a push, with the identifiers 1 and 2 (TS 29.212, 5.6.4)."""
    avps = [avp(263, session), avp(258, GX)] + names(site) + [avp(283, realm), avp(293, host), avp(285, 0)]
    return message(0xC0, RAR, GX, avps + entries_avps(entries))


def asr(site, session, host, realm):
    """The abort session request of an abort, with the identifiers 7 and 8 (TS 29.214, 5.6.7)."""
    avps = [avp(263, session), avp(258, RX)] + names(site) + [avp(283, realm), avp(293, host), tgpp(500, 0)]
    return message(0xC0, ASR, RX, avps, 7, 8)


def rx_answer(site, header, values, code):
    """The answer to an AA or a session termination request that was read."""
    avps = [avp(263, first(values, "session"))] + ([] if header.command == STR else [avp(258, RX)])
    return answer(header, avps + names(site) + [result(code)], code)


def base_answer(site, header, code):
    """The answer to a request of the base protocol that was read (RFC 6733, 5.3 to 5.5)."""
    avps = [result(code)] + names(site)
    if header.command == CER:
        avps += [avp(257, b"\0\1\x7f\0\0\1"), avp(266, 0), avp(269, "pcrf", flags=0)]
        avps += [avp(260, avp(266, TGPP) + avp(258, application)) for application in (GX, RX)]
    return answer(header, avps, code)
