"""Counts what random scripts and streams reach, from the messages and answers themselves."""
from collections import Counter

from plain_requests import (AAR, BASE, CCR, CER, DPR, DWR, GX, RX, STR, Refused, cut_avps, cut_stream, first, number,
                            read_header, read_request)

COMMANDS = {(CCR, GX): "CCR", (AAR, RX): "AAR", (STR, RX): "STR",
            (CER, BASE): "CER", (DWR, BASE): "DWR", (DPR, BASE): "DPR"}
KINDS = {1: "CCR-I", 2: "CCR-U", 3: "CCR-T"}


def command_name(frame):
    """The command of a frame, of a credit control request that can be read its kind too."""
    header = read_header(frame)
    name = COMMANDS.get((header.command, header.application), "other")
    try:
        values = read_request(frame).values
    except Refused:
        return f"{name} unread"
    return KINDS[first(values, "kind")] if name == "CCR" else name


def result_code(answer):
    """The Result-Code or Experimental-Result-Code of an answer."""
    values = {avp.code: avp.value for avp in cut_avps(answer[20:])}
    if 268 in values:
        return number(values[268])
    return number(next(avp.value for avp in cut_avps(values[297]) if avp.code == 298))


def aimed(draw, site, tally, least):
    """A frame that a site answers as too few were so far; a watchdog if none is found soon."""
    wanted = {name for name, count in least.items() if name[-4:].isdigit() and tally[name] < count}
    for _ in range(600 if wanted else 0):
        frame, trial = draw.one([draw.message, draw.refused])(), Tally()
        if cut_stream(frame) == ([frame], None):
            trial.exchange(frame, site.copy().serve(frame))
            if wanted & set(trial):
                return frame
    return draw.dwr().octets()


class Tally(Counter):
    """How often each thing was reached."""

    def exchange(self, frame, answer):
        """A frame and its answer, which is None where it gets none."""
        if answer is None:
            self["no answer"] += 1
        else:
            self[f"{command_name(frame)} {result_code(answer)}"] += 1

    def demand(self, least):
        """Fails where a thing was reached less often than it has to be."""
        missed = {name: (self[name], count) for name, count in least.items() if self[name] < count}
        assert not missed, f"reached too seldom (reached, wanted): {missed}"

    def tell(self):
        """Prints all counts."""
        for name, count in sorted(self.items()):
            print(f"{count:6} {name}")
