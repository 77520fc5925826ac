"""The rules about several exchanges, in the order in which these ended. An exchange that overlaps a
change of its object says nothing of the order of both, and is not asked.

A name is asked about only if its directory has been seen at rest as well. Hidden names, as
`.snapshot`, are in no listing.
"""
from __future__ import annotations

from collections import Counter
from collections.abc import Sequence

from ..exchanges.in_words import beginning_of
from ..exchanges.kept import host_of
from ..exchanges.objects import DOTS
from ..exchanges.procedures import (
    COMMIT, CREATE, LISTINGS, LOOKUP, OF_NAMES, READ, READLINK, RENAME, SETATTR, SYMLINK, WRITE)
from ..exchanges.values import seconds
from ..recordings.selection import count
from .alone import BESIDE, broken, broken_by, of_made, of_sent_times
from .objects import (
    HIDDEN, NO_VERIFIER, OTHERS, Epoch, FileContent, FilePart, KnownName, NameTarget, Object,
    Objects)
from .recorded import END, NEVER, UNCHECKED, UNLINKING, Recorded, RecordedExchange
from .rules import ACROSS, CLIENT, Evidence, Looked, RuleFinding

UNSTABLE = 0
OF_DATA = (WRITE, SETATTR, COMMIT)


class Across(Objects):
    """Takes exchanges, and finds which of them cannot both be right. Rules about clients are asked
    if all connections were judged whole.

    moved, stood: the servers at which a change of a directory moved its ctime, and did not
    named, listed: how many names were compared at each server, and whole listings
    placed: the handles that were found last under names of folders
    unnamed: the end of each server's last removal of a name that was not known
    verifiers: those of each server before the last one, and the last exchange that shows each
    """

    def __init__(self, recorded: Recorded, looked: Looked, is_whole: bool) -> None:
        super().__init__(looked)
        self.recorded, self.is_whole = recorded, is_whole
        self.moved, self.stood = set[str](), set[str]()
        self.named, self.listed = Counter[str](), Counter[str]()
        self.placed, self.unnamed = dict[tuple[str, ...], str](), dict[str, int]()
        self.verifiers = dict[tuple[str, str], Evidence]()
        self.ways = {WRITE: self.write, READ: self.read, SETATTR: self.set_size,
                     CREATE: self.create, COMMIT: self.commit, SYMLINK: self.take_text,
                     READLINK: self.take_text}

    def take(self, one: RecordedExchange) -> None:
        """Takes an exchange whose call was accepted. None before it has a later end."""
        self.shown, several = set(), [told for told in one.told if told.handle]
        self.show_clock(one)
        for told in several:
            self.observe(one, told)
        if one.source.end < NEVER:
            if one.procedure in self.ways and (one.is_ok or one.procedure in OF_DATA):
                self.ways[one.procedure](one, self.at(one, one.call['fh']))
            if one.server not in self.recorded.insensitive:
                self.take_names(one)
        if one.procedure in UNLINKING and one.is_done:
            self.relinked[one.server] = one.source.end
        if self.is_whole:
            self.place(one)
        for told in several:
            self.settle(one, told)

    def end(self) -> None:
        """Finds what counts only once all exchanges are taken. What was found of names at servers
        whose times do not show changes does not count: those of others are not seen."""
        still = self.stood - self.moved
        self.denied |= still | {(key, OTHERS) for key in self.known if self.others[key[0]] - {key}}
        for server in sorted(still):
            self.looked.leave('names', f'the ctimes of folders at {server} do not move')
        for server in sorted(self.recorded.insensitive):
            self.looked.leave('names', f'{server} takes upper and lower case for one')
        self.looked.names += sum(self.named[one] for one in self.named.keys() - still)
        self.looked.listings += sum(self.listed[one] for one in self.listed.keys() - still)
        if self.is_whole:
            self.find_uncommitted()
        else:
            self.looked.leave('commits', 'not every connection was judged whole')

    # --- Data ---

    def write(self, one: RecordedExchange, known: Object) -> None:
        """Takes what was written and is not committed. After an error the client knows it."""
        if not one.is_ok:
            known.content.put(FilePart(one.first, one.last))
            known.unstable = FileContent()
            return
        self.write_time(one, known)
        epoch = self.epoch_of(one)
        is_alone = not any(change.written[0] < one.last and one.first < change.written[1]
                           for change in one.beside())
        data, last = one.call['data'], one.first + min(len(one.call['data']), one.reply['count'])
        # (the frame of the call has the data)
        part = FilePart(one.first, last, one.source._replace(frame=one.source.begin),
                        data if is_alone else None, one.first, epoch)
        if one.reply['committed'] == UNSTABLE:
            known.unstable.put(part)
            self.looked.writes += self.is_whole
        else:
            part = part._replace(epoch=None)
            known.unstable.forget(one.first, last)
        known.content.put(part)

    def write_time(self, one: RecordedExchange, known: Object) -> None:
        """WRITE that moves mtime moves ctime as well."""
        (_, after, before), seen = one.told[0], known.seen
        was, source = before or seen and seen.now, seen and seen.source
        if after and was and one.call['count'] and after.ctime < after.mtime != was.mtime \
                and one.is_quiet():
            text = (f'mtime is {seconds(after.mtime)}, {source or "before"} it was '
                    f'{seconds(was.mtime)}, and ctime is {seconds(after.ctime)}')
            self.add('write-ctime', one.source, text, source)

    def read(self, one: RecordedExchange, known: Object) -> None:
        """READ returns what was written or read before."""
        looked, data = self.looked, one.reply['data'][:]
        if one.call['fh'] not in self.shown or known.is_blind:
            looked.beside += 1
            return
        at, part, compared = known.content.unlike(one.first, data)
        looked.reads, looked.bytes = looked.reads + (compared > 0), looked.bytes + compared
        if part and part.data and part.source:
            was = part.data[at - part.at:at - part.at + 1][0]
            text = (f'byte {at:,} is 0x{data[at - one.first]:02x}, {part.source} it was '
                    f'0x{was:02x}, with the same mtime and size')
            # (data that are committed outlive the server)
            start = part.epoch and self.started(one.server, part.epoch)
            self.find(one, known, 'read-data', text, part.source, start, waits=False)
        # (what is read may be another's that is not committed)
        epoch = self.epochs.get(one.server) or Epoch(one.server, NO_VERIFIER, one.source)
        known.content.put(FilePart(one.first, one.first + len(data), one.source, one.reply['data'],
                                   one.first, epoch))

    def set_size(self, one: RecordedExchange, known: Object) -> None:
        """SETATTR of a size forgets the bytes behind it."""
        size = one.call.get('set.size')
        if size is not None and one.is_done:
            known.unstable.forget(size)
            known.content.put(FilePart(size if one.is_ok and one.is_quiet() else 0, END))

    def create(self, one: RecordedExchange, folder: Object) -> None:
        """UNCHECKED CREATE makes a file if its name is known to have been free, or cuts one."""
        if one.call['how'] != UNCHECKED:
            return
        was = folder.known_of(one.call['name'])
        if was is not None and not was.leads_to and self.is_shown(one, folder):
            for rule, text in broken(of_made(one, True)):
                self.find(one, folder, rule, text, was.source, one.server)
        if one.call.get('set.size') == 0 and 'fh' in one.reply:
            known = self.at(one, one.reply['fh'])
            known.content, known.unstable = FileContent(), FileContent()

    def take_text(self, one: RecordedExchange, _: Object) -> None:
        """READLINK returns the text that was given or read before. SYMLINK has another handle."""
        told, path = one.told[0], (one.reply if one.procedure == READLINK else one.call)['path']
        known = self.at(one, told.handle)
        if told.now and known.text:
            was, mtime, source = known.text
            if told.now.mtime == mtime and path != was:
                text = f'"{beginning_of(path)}", {source} it was "{beginning_of(was)}"'
                self.find(one, known, 'readlink-text', text, source, waits=False)
        known.text = (path, told.now.mtime, one.source) if told.now else None

    # --- Commits ---

    def commit(self, one: RecordedExchange, known: Object) -> None:
        """Data whose WRITE ended before are committed, if the verifier is the same."""
        if not one.is_ok:
            known.unstable = FileContent()
            return
        verifier = self.epoch_of(one).verifier

        def committed(part: FilePart) -> FilePart | None:
            if part.source and part.source.end >= one.source.begin:
                return part
            is_same = part.epoch is not None and part.epoch.verifier == verifier
            return None if is_same else part._replace(refused=one.source)
        known.unstable.change(one.first, one.last if one.call['count'] else END, committed)

    def epoch_of(self, one: RecordedExchange) -> Epoch:
        """Takes the verifier of a reply, which stays: data under an earlier one may be lost. If one
        comes back, no new start explains that it was away."""
        verifier, known = str(one.reply['verf']), self.epochs.get(one.server)
        self.epochs[one.server] = epoch = Epoch(one.server, verifier, one.source)
        if known and known.verifier != verifier:
            self.denied.add(known)
            self.verifiers[known[:2]] = known.source
            before = self.verifiers.get(epoch[:2])
            if before and before.end < known.source.begin and known.source.end < one.source.begin:
                self.add('verifier-back', known.source, f'verf is 0x{known.verifier}, before and '
                         f'after ({one.source.words}) it was 0x{verifier}', one.source)
            else:
                text = f'verf is 0x{verifier}, {known.source} it was 0x{known.verifier}'
                self.add('verifier', one.source, text, known.source)
        return epoch

    def place(self, one: RecordedExchange) -> None:
        """Takes under which names files are. Data of one that is removed need not be committed."""
        self.placed.update(
            ((one.server, one.call['fh'], entry['name']), told.handle)
            for told, entry in zip(one.told[1:], one.reply.get('entries', ())) if told.handle)
        names = [(one.server, *name) for name in one.names]
        if one.procedure in UNLINKING and one.is_done:
            files = [self.placed.pop(name, '') for name in names]
            if files[-1]:
                self.at(one, files[-1]).unstable = FileContent()
            else:
                self.unnamed[one.server] = one.source.end
            if one.procedure == RENAME:
                self.placed[names[1]] = files[0]
        elif names and one.is_ok:
            self.placed[names[0]] = str(one.call.get('file.fh') or one.reply.get('fh', ''))

    def find_uncommitted(self) -> None:
        """UNSTABLE data are committed before all connections of their client end. A finding is of
        a file: of a COMMIT that has another verifier, or of none."""
        pending = self.recorded.pending
        excused = pending | {(key[0], self.placed.get(key, '')) for key in pending}
        named = {(key[0], handle) for key, handle in self.placed.items()}
        for known in self.known.values() if self.is_whole else ():
            removed = 0 if known.key in named else self.unnamed.get(known.key[0], 0)
            parts = [(part, part.source) for part in known.unstable.parts if part.source
                     and known.key not in excused and part.source.begin > removed]
            if any(self.goes_on(source) for _, source in parts):
                self.looked.leave('commits', 'a client goes on after the end of the recording')
                continue
            for refused in dict.fromkeys(part.refused for part, _ in parts):
                self.uncommitted(refused, [both for both in parts if both[0].refused == refused])

    def goes_on(self, source: Evidence) -> bool:
        """Whether a connection of the client of an exchange has no end in the recording."""
        parts, number = self.recorded.kept.parts, self.recorded.kept.part_of[source.number]
        client, server = host_of(parts[number].client), parts[number].server
        return any(part.server == server and host_of(part.client) == client
                   and not part.has_all_replies for part in parts)

    def uncommitted(self, refused: Evidence | None,
                    parts: Sequence[tuple[FilePart, Evidence]]) -> None:
        """Adds the data of a file that are not committed, or not by this COMMIT."""
        (first, source), (last, _) = parts[0], parts[-1]
        writes = count(len({source.number for _, source in parts}), 'WRITE')
        digits = first.epoch and first.epoch.verifier
        how = 'written again after another verf' if refused else 'committed'
        self.add('not-committed', refused or source,
                 f'bytes {first.begin:,} to {last.end:,} of {writes}, {source} with verf '
                 f'0x{digits}, are not {how}', source)

    # --- Names ---

    def take_names(self, one: RecordedExchange) -> None:
        """Takes what a reply says of names against what is known, and then what the call did."""
        if one.procedure in LISTINGS and one.is_ok:
            self.take_listing(one, self.at(one, one.call['fh']))
        if one.procedure in OF_NAMES and one.is_ok:
            # (whether a change of a directory is seen in its ctime)
            times = [told.now.ctime != told.before.ctime for told in one.told
                     if told.now and told.before]
            self.moved.update([one.server] * any(times))
            self.stood.update([one.server] * (not all(times)))
        for number, (handle, name) in enumerate(one.names):
            # (a name with a slash is a path of WebNFS)
            if name not in DOTS and '/' not in name:
                self.take_name(one, number, self.at(one, handle), name)

    def is_shown(self, one: RecordedExchange, folder: Object) -> bool:
        """Whether a reply shows a folder that has been at rest."""
        return one.sent == 1 and folder.seen is not None and folder.key[1] in self.shown

    def find_name(self, one: RecordedExchange, folder: Object, rule: str, name: str,
                  known: KnownName, *words: str) -> None:
        """Adds that a name is not what it was."""
        text = f'{name} is {words[0]}, {known.source} it was {words[1]}'
        self.find(one, folder, rule, text, known.source, one.server)

    def take_name(self, one: RecordedExchange, number: int, folder: Object, name: str) -> None:
        handle = str(one.call.get('file.fh') or one.reply.get('fh', ''))
        made = self.known.get((one.server, handle))
        says = one.says_of(number)
        found = made.ids.leads_to if made and made.ids and one.is_ok else True
        is_known = says is not None and self.is_shown(one, folder)
        if is_known:
            self.compare(one, folder, name, found if says else False)
        if one.procedure != LOOKUP and one.is_unsure():
            folder.forget_name(name)
        elif one.is_ok and one.procedure == RENAME:
            self.rename(one, number)
        elif one.is_ok and one.procedure != LOOKUP:
            folder.names[name] = KnownName(one.procedure not in UNLINKING and found, one.source)
        elif is_known:
            folder.names[name] = KnownName(found if says else False, one.source)

    def compare(self, one: RecordedExchange, folder: Object, name: str, now: NameTarget) -> None:
        """Compares what a reply says of a name with what is known."""
        known = folder.known_of(name)
        if known is None:
            return
        self.named[one.server] += 1
        was = known.leads_to
        if bool(now) != bool(was):
            words = ('there', 'gone') if now else ('gone', 'there')
            self.find_name(one, folder, 'name-gone' if now else 'name-there', name, known, *words)
        elif one.procedure == LOOKUP and is_other(now, was):
            words_of_both = (f'of fileid {ids[2]}' for ids in (now, was) if isinstance(ids, tuple))
            self.find_name(one, folder, 'name-object', name, known, *words_of_both)

    def rename(self, one: RecordedExchange, number: int) -> None:
        """Moves a name. If both may be links to one object, nothing may have been done."""
        if not number:
            return
        (old, name), (new, other) = one.names
        before, after = self.at(one, old), self.at(one, new)
        moved, replaced = before.names.get(name), after.names.get(other)
        if replaced and (not replaced.leads_to
                         or moved and is_other(moved.leads_to, replaced.leads_to)):
            after.names[other] = KnownName(moved and moved.leads_to or True, one.source)
            before.names[name] = KnownName(False, one.source)
        else:
            before.forget_name(name)
            after.forget_name(other)

    def take_listing(self, one: RecordedExchange, folder: Object) -> None:
        """Takes a part of a listing. Parts go on at a last cookie, and have one mtime."""
        cookie, (before, folder.listing) = one.call['cookie'], (folder.listing, None)
        now, entries = one.told[0].now, one.reply['entries']
        if now is None or one.call['fh'] not in self.shown:
            return
        names = [entry['name'] for entry in entries]
        last = entries[-1]['cookie'] if entries else cookie
        seen = folder.seen if folder.seen and folder.seen.now.mtime == now.mtime else None
        if not cookie:
            folder.listing = now.mtime, last, names
        elif before and before[:2] == (now.mtime, cookie):
            folder.listing = now.mtime, last, before[2] + names
            twice = sorted(set(names) & set(before[2]))
            if twice and seen:
                self.find(one, folder, 'listing', f'{twice[0]} is listed twice', seen.source,
                          one.server)
        if one.reply['eof'] and folder.listing and seen and not folder.is_blind:
            self.take_whole(one, folder, set(folder.listing[2]))

    def take_whole(self, one: RecordedExchange, folder: Object, there: set[str]) -> None:
        """Compares a whole listing with the names that are known, and takes it."""
        self.listed[one.server] += 1
        for name, known in sorted(folder.names.items()):
            is_listed, was = name in there, bool(known.leads_to)
            # (a server may have another spelling of names that are not of ASCII)
            if is_listed != was and '\\x' not in name and (is_listed or name[0] != HIDDEN):
                words = ('listed', 'gone') if is_listed else ('not listed', 'there')
                self.find_name(one, folder, 'listing', name, known, *words)
        before, folder.whole = folder.names, one.source
        folder.names = {
            name: KnownName(name in before and before[name].leads_to or True, one.source)
            for name in there - {*DOTS}}


def findings_in(recorded: Recorded, looked: Looked, is_whole: bool) -> list[RuleFinding]:
    """Puts the rules to the exchanges of a recording, which was judged whole or not."""
    across = Across(recorded, looked, is_whole)
    for one in recorded.answered():
        looked.exchanges += 1
        for rule, text in broken(of_sent_times(one)) if one.is_change else ():
            across.add(rule, one.source, text, by=CLIENT)
        for rule, text in broken_by(one):
            across.add(rule, one.source, text, None, *[one.source.number] * (rule in BESIDE))
        if recorded.has_frames:
            across.take(one)
    if recorded.has_frames:
        across.end()
    else:
        for group in ACROSS:
            looked.leave(group, 'a capture has no frames')
    return [one for one in across.findings if across.denied.isdisjoint(one.unless)]


def is_other(one: NameTarget, other: NameTarget) -> bool:
    """Whether two objects are known by their ids, and are not the same."""
    return isinstance(one, tuple) and isinstance(other, tuple) and one != other
