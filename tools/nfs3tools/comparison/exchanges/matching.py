"""Sequences brought together: which elements of one run belong to which of the other."""
from __future__ import annotations

import difflib
from array import array
from bisect import bisect_left
from collections import Counter, defaultdict
from collections.abc import Hashable, Sequence
from typing import NamedTuple

# Up to so many pairs of elements that have no anchor are compared each with each.
PAIRS_AT_MOST = 1_000_000
# Two sequences that part meet again if so many elements are equal, at most so many elements on.
ENOUGH, NEAR = 4, 32
STEP = 1_024

Pair = tuple[int, int]


class Block(NamedTuple):
    """Equal elements that follow one another: where they begin, and how many there are."""
    at: int
    to: int
    size: int


def increasing(pairs: Sequence[Pair]) -> list[Pair]:
    """Returns most of some pairs, sorted by their firsts, so that their seconds increase."""
    tails: list[int] = []
    at: list[int] = []
    before: list[int] = []
    for number, (_, second) in enumerate(pairs):
        place = bisect_left(tails, second)
        before.append(at[place - 1] if place else -1)
        tails[place:place + 1] = [second]
        at[place:place + 1] = [number]
    chosen, number = [], at[-1] if at else -1
    while number >= 0:
        chosen.append(pairs[number])
        number = before[number]
    return chosen[::-1]


def anchors(first: Sequence[Hashable], second: Sequence[Hashable]) -> list[Pair]:
    """Returns the elements that each side has just once, as far as they are in the same order."""
    counts, others = Counter(first), Counter(second)
    places = {key: at for at, key in enumerate(second) if others[key] == 1}
    return increasing([(at, places[key]) for at, key in enumerate(first) if counts[key] == 1
                       and key in places])


def by_turn(first: Sequence[Hashable], second: Sequence[Hashable]) -> list[Pair]:
    """Returns the n-th elements of a key of both sides, as far as they are in the same order."""
    places: dict[Hashable, list[int]] = defaultdict(list)
    for at in range(len(second) - 1, -1, -1):
        places[second[at]].append(at)
    return increasing([(at, places[key].pop()) for at, key in enumerate(first) if places.get(key)])


def without_anchor(first: Sequence[Hashable], second: Sequence[Hashable]) -> list[Pair]:
    if len(first) * len(second) > PAIRS_AT_MOST:
        return by_turn(first, second)
    matcher = difflib.SequenceMatcher(None, first, second, autojunk=False)
    return [(block.a + at, block.b + at) for block in matcher.get_matching_blocks()
            for at in range(block.size)]


def aligned(first: Sequence[Hashable], second: Sequence[Hashable]) -> list[Pair]:
    """Returns pairs of equal elements whose places increase on both sides. Equal ends and elements
    that are there just once come first, so the cost is about that of reading them if little
    differs."""
    pairs: list[Pair] = []
    windows = [(0, len(first), 0, len(second))]
    while windows:
        low, high, other_low, other_high = windows.pop()
        while low < high and other_low < other_high and first[low] == second[other_low]:
            pairs.append((low, other_low))
            low, other_low = low + 1, other_low + 1
        while low < high and other_low < other_high and first[high - 1] == second[other_high - 1]:
            high, other_high = high - 1, other_high - 1
            pairs.append((high, other_high))
        if low == high or other_low == other_high:
            continue
        part, other = first[low:high], second[other_low:other_high]
        found = anchors(part, other)
        if not found:
            pairs += [(low + at, other_low + to) for at, to in without_anchor(part, other)]
            continue
        ends = [(low + at, other_low + to) for at, to in found]
        pairs += ends
        edges = [(low - 1, other_low - 1), *ends, (high, other_high)]
        windows += [(at + 1, end, to + 1, other_end)
                    for (at, to), (end, other_end) in zip(edges, edges[1:])]
    return sorted(pairs)


def common(first: 'array[int]', second: 'array[int]', at: int, to: int) -> int:
    """Returns how many elements are equal from these places on."""
    size, done = min(len(first) - at, len(second) - to), 0
    while done < size:
        part, other = first[at + done:at + done + STEP], second[to + done:to + done + STEP]
        shorter = min(len(part), len(other))
        if part[:shorter] != other[:shorter]:
            return done + next(number for number in range(shorter) if part[number] != other[number])
        done += shorter
    return size


def meeting(first: 'array[int]', second: 'array[int]', at: int, to: int) -> Pair:
    """Returns where two sequences meet again after these places: near, or at their equal ends."""
    for distance in range(1, NEAR):
        for here in range(max(0, distance - len(second) + to), min(distance, len(first) - at) + 1):
            end, other_end = at + here, to + distance - here
            part, other = first[end:end + ENOUGH], second[other_end:other_end + ENOUGH]
            if part == other and (len(part) == ENOUGH or end + len(part) == len(first)
                                  and other_end + len(other) == len(second)):
                return end, other_end
    end, other_end = len(first), len(second)
    while end > at and other_end > to and first[end - 1] == second[other_end - 1]:
        end, other_end = end - 1, other_end - 1
    return end, other_end


def blocks_of(first: 'array[int]', second: 'array[int]') -> list[Block]:
    """Returns what `aligned` does, in blocks: memory is for what differs."""
    blocks, at, to = list[Block](), 0, 0
    while True:
        size = common(first, second, at, to)
        if size:
            blocks.append(Block(at, to, size))
        at, to = at + size, to + size
        if at == len(first) or to == len(second):
            return blocks
        end, other_end = meeting(first, second, at, to)
        blocks += [Block(at + here, to + there, 1)
                   for here, there in aligned(first[at:end], second[to:other_end])]
        at, to = end, other_end
