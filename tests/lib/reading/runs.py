"""A second reading of the rules on cluster runs: what the run bytes of an attribute that is not resident tell."""
from typing import NamedTuple, Optional

from .answers import Refusal

# the most bytes that a length or a distance may have, and the most that a start or the sum of the lengths may be
WIDEST = 8
MOST = 2 ** 63 - 1


class Run(NamedTuple):
    """So many clusters, from `start` on; a hole has no start."""

    start: Optional[int]
    length: int


class State(NamedTuple):
    """Where the runs of one attribute go on: where the next header stands and where the run bytes end, both in the
    record; the last start, and the sum of the lengths so far."""

    place: int
    end: int
    start: int
    total: int


def fresh(place, count):
    """The state in front of the first run: distances and sums begin anew with each attribute."""
    return State(place, place + count, 0, 0)


def run(record, number, state):
    """One run: (it, the state left). It is None at the end; a refusal is at the run's header."""
    rest = record[state.place:state.end]
    # two ways to end, neither of which moves on
    if not rest or rest[0] == 0:
        return None, state
    wide, far = rest[0] % 16, rest[0] // 16
    if wide == 0 or wide > WIDEST or far > WIDEST:
        raise Refusal(23, number, state.place)
    behind = 1 + wide + far
    if behind > len(rest):
        raise Refusal(24, number, state.place)
    length = int.from_bytes(rest[1:1 + wide], "little")
    if length == 0:
        raise Refusal(25, number, state.place)
    # without a byte the distance is 0, so that a hole leaves the last start as it is, whatever that was
    start = state.start + int.from_bytes(rest[1 + wide:behind], "little", signed=True)
    total = state.total + length
    if far and (start < 0 or start > MOST) or total > MOST:
        raise Refusal(26, number, state.place)
    # a distance of 0 makes no hole, having no distance does
    return Run(start if far else None, length), State(state.place + behind, state.end, start, total)


def all_runs(record, number, place, count):
    """All runs of an attribute whose run bytes stand there: (they, the refusal that ends them or None, the state
    left, which is at the header that ends them)."""
    runs, state = [], fresh(place, count)
    while True:
        try:
            given, state = run(record, number, state)
        except Refusal as refusal:
            return runs, refusal, state
        if given is None:
            return runs, None, state
        runs.append(given)
