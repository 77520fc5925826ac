"""What is said of frames of which nothing is taken."""
from __future__ import annotations

from .coverage import Covered
from .layers import Others
from .reading import ReadRecording
from .selection import count, plural

TUNNEL = '*'  # ends the name of frames that may have segments of TCP in them


def others_in(read: ReadRecording, ports: frozenset[int]) -> Others:
    """Looks at the frames that have no segment. The ports are those of NFS."""
    others = Others(ports)
    for frame in read.frames_without_segment():
        others.take(frame)
    return others


def notes_of(read: ReadRecording, others: Others) -> list[str]:
    notes, cut = list[str](), read.count_cut_frames()
    if cut:
        notes.append(f'{count(cut, "frame")} {plural(cut, "was", "were")} '
                     'recorded in part only (the snap length, as of `tcpdump -s`); '
                     'what they lack is missing')
    if others.lying:
        notes.append(f'{count(others.lying, "frame")} {plural(others.lying, "has", "have")} '
                     f'headers that do not fit {plural(others.lying, "its", "their")} length, '
                     f'and {plural(others.lying, "is", "are")} passed over')
    return notes


def nothing_in(others: Others) -> str:
    kinds = sorted(others.kinds.items(), key=lambda one: (-one[1], one[0]))
    told = ', '.join(f'{number:,} of {name.rstrip(TUNNEL)}' for name, number in kinds)
    frames = count(sum(others.kinds.values()), 'frame')
    return (f'no connection to judge: {frames} without TCP: {told}' if kinds
            else 'no connection to judge')


def remarks_of(others: Others) -> list[Covered]:
    """What is not judged of the frames that have no segment."""
    return [*unread_of(others), *fragments_of(others), *datagrams_of(others), *unknown_of(others)]


def unread_of(others: Others) -> list[Covered]:
    """Frames of TCP whose headers cannot be read, of a port of NFS or of an unknown one."""
    words = '%s%s %s not taken, since %s headers are not whole or do not fit %s length'
    return [Covered('in part', words % (
        count(number, 'frame'), f' to or from port {port}' if port else '',
        plural(number, 'is', 'are'), *[plural(number, 'its', 'their')] * 2))
        for port, number in sorted(others.unread.items(), key=lambda one: one[0] or 0)]


def unknown_of(others: Others) -> list[Covered]:
    """Frames that may have segments of TCP in them, of kinds that are not read."""
    kinds = [*((name.rstrip(TUNNEL), number) for name, number in sorted(others.kinds.items())
               if name.endswith(TUNNEL)),
             *((f'the link type {link}', number) for link, number in others.links.items())]
    return [Covered('not checked',
                    f'{count(number, "frame")} of {name} {plural(number, "is", "are")} not read; '
                    f'what is in {plural(number, "it", "them")} is not known')
            for name, number in kinds]


def fragments_of(others: Others) -> list[Covered]:
    number = others.fragments
    return [Covered('in part', f'{count(number, "frame")} with '
                    f'{plural(number, "a fragment", "fragments")} of IP that '
                    f'{plural(number, "is", "are")} part of a segment of TCP '
                    f'{plural(number, "is", "are")} not taken')] if number else []


def datagrams_of(others: Others) -> list[Covered]:
    """Datagrams of UDP, which may have calls and replies in them."""
    return [Covered('left out', f'{count(number, "UDP datagram")} to or from port {port} '
                    f'{plural(number, "is", "are")} not taken')
            for port, number in sorted(others.datagrams.items())]
