"""A masker by the layouts of `tools/nfs3tools/shared/layouts.py`, with which nfs3mask is compared.

It knows the classes by the names of `tools/compare`, and `raw`: the bodies of other programs and
versions.
"""
import random
import re
from collections.abc import Iterable, Iterator
from pathlib import Path

from examples.messages import Bodies, word
from tools.nfs3tools.comparison.values.classes import CLASSES, Mask, ValueClass, Way
from tools.nfs3tools.shared.layouts import BodyReader, PlacedItem, Procedure, procedure_of

TOP = Path(__file__).resolve().parents[2]

NF3DIR = '2'
SILLY_NAME = re.compile(rb'\.nfs[0-9a-f]{24}')


def with_changing(items: Iterable[PlacedItem], is_call: bool) -> Iterator[tuple[PlacedItem, bool]]:
    """Yields each item, and whether others may change meanwhile what it says if it is a size or a
    count of links: it is of a reply, in the attributes of a directory, or after the word that
    begins wcc_data (RFC 1813)."""
    is_directory = is_wcc = False
    for item in items:
        is_wcc = is_wcc or item.name == 'before'
        if item.name == 'type':
            is_directory = item.value.split()[0] == NF3DIR
        yield item, not is_call and (is_directory or is_wcc)


class Masker:
    """Masks the bodies of messages, in the order of the capture: the numbers of values go on from
    body to body."""

    def __init__(self, mask: Mask) -> None:
        self.mask = mask
        self.numbers: dict[str, dict[int, int]] = {name: {} for name, way in mask.items()
                                                   if way is Way.NUMBER}

    def class_of(self, name: str, content: bytes, is_call: bool,
                 is_changing: bool) -> ValueClass | None:
        """Returns the class that is masked of a value of this name, where it has one."""
        found = next((one for one in CLASSES if one.name in self.mask and one.has(name, is_call)),
                     None)
        if found and (found.name == 'wcc' and not is_changing or found.name == 'sillynames'
                      and not SILLY_NAME.fullmatch(content)):
            return None
        return found

    def value(self, owner: ValueClass, content: bytes) -> bytes:
        """Returns what replaces a value, in its own width."""
        if self.mask[owner.name] is Way.ZERO or owner.keeps_zero and not any(content):
            return bytes(len(content))
        numbers = self.numbers[owner.name]
        return numbers.setdefault(int.from_bytes(content, 'big'),
                                  len(numbers) + 1).to_bytes(len(content), 'big')

    def body(self, body: bytes, is_call: bool, procedure: Procedure) -> bytes:
        """Returns the body of a well-formed message with its masked values."""
        message = BodyReader(body)
        message.read(is_call, procedure)
        out, named = bytearray(body), list[tuple[ValueClass, PlacedItem]]()
        for item, is_changing in with_changing(message.items, is_call):
            owner = self.class_of(item.name, body[item.begin:item.end], is_call, is_changing)
            if item.name == 'rest' and 'raw' in self.mask:
                out[item.begin:item.end] = self.raw(item.end - item.begin)
            elif owner and owner.has_names:
                named.append((owner, item))
            elif owner:
                out[item.begin:item.end] = self.value(owner, body[item.begin:item.end])
        length = next((item for item in message.items if item.name == 'cred_length'), None)
        # From the last to the first, so that those before are where they were.
        for owner, item in reversed(named):
            more = put_text(out, item, self.name_in(owner))
            if length and item.name == 'machinename':
                out[length.begin:length.end] = word(int.from_bytes(out[length.begin:length.end],
                                                                   'big') + more)
        return bytes(out)

    def raw(self, size: int) -> bytes:
        """Returns what replaces the bytes of a body of another program or version."""
        return bytes(size)

    def name_in(self, owner: ValueClass) -> bytes:
        """Returns what replaces a name: of a machine, or of a file that was removed while it was
        open."""
        return b'' if owner.name == 'machines' else b'.nfs' + b'0' * 24


def put_text(body: bytearray, item: PlacedItem, text: bytes) -> int:
    """Puts a text in place of one, with its length and residual bytes, and returns how many bytes
    more there are."""
    begin, end = item.begin - 4, item.end + -(item.end - item.begin) % 4
    spelled = word(len(text)) + text + bytes(-len(text) % 4)
    body[begin:end] = spelled
    return len(spelled) - (end - begin)


def masked_bodies(connections: Iterable[Bodies], masker: Masker) -> Iterator[Bodies]:
    """Returns the bodies of each connection's calls and replies, with masked values."""
    for calls, replies in connections:
        procedures = {body[:4]: procedure_of(*(int.from_bytes(body[at:at + 4], 'big')
                                               for at in (12, 16, 20))) for body in reversed(calls)}
        first = [masker.body(body, True, procedures[body[:4]]) for body in calls]
        yield first, [masker.body(body, False, procedures[body[:4]]) for body in replies]


class Renamer(Masker):
    """Puts other values in the place of those of the classes: one to one if they are numbered, and
    any if they become zero. Any name of a machine becomes another, and so do names of
    removed files, and bodies of one length that are not checked."""

    def __init__(self, mask: Mask, chance: random.Random) -> None:
        super().__init__(mask)
        self.chance = chance
        self.others: dict[str, dict[int, int]] = {name: {} for name in mask}

    def value(self, owner: ValueClass, content: bytes) -> bytes:
        if self.mask[owner.name] is Way.ZERO:
            return self.chance.randbytes(len(content))
        if owner.keeps_zero and not any(content):
            return content
        others, number = self.others[owner.name], int.from_bytes(content, 'big')
        while number not in others:
            other = self.chance.randrange(1, 1 << 32)
            if other not in others.values():
                others[number] = other
        return others[number].to_bytes(len(content), 'big')

    def raw(self, size: int) -> bytes:
        return self.chance.randbytes(size)

    def name_in(self, owner: ValueClass) -> bytes:
        if owner.name == 'machines':
            return self.chance.randbytes(self.chance.randrange(256))
        return b'.nfs' + bytes(self.chance.choices(b'0123456789abcdef', k=24))
