"""Tests of the page that tools/compare --html writes, and of its use in Chromium."""
import itertools
import re
from collections.abc import Sequence

from examples.messages import (
    ACCES, MOUNT, NFS, array, call, dirop, entries, entry, entryplus, failed, fattr, fh, fragment,
    guard, hyper, ok, opaque, post_op_attr, sattr, success, wcc, word)
from examples.packets import Talk, pcap

from .comparisons import Comparisons, Conversation, Exchange, conversation_of
from .pages import (
    HERE, HOSTILE, SHOWN, VISIBLE, WIDTHS, Browser, Node, Pages, asked_of_others, broken_links,
    find, in_chromium, light_of, table_of)
from .scripts import CHANGED, EXAMPLES, FIRST, SECOND

GETATTR, SETATTR, LOOKUP, READLINK, READ, WRITE, MKDIR, READDIR, READDIRPLUS = (
    1, 2, 3, 5, 6, 7, 9, 16, 17)
CONCURRENT = tuple(str(EXAMPLES / f'concurrent_{name}.pcap') for name in ('a', 'b', 'changed'))


class Compared(Comparisons, Pages):
    """Runs of tools/compare that write a page."""

    def page(self, *words: str) -> Node:
        """The page of two runs: of `a` and `b` if none are named."""
        runs = () if words and not words[-1].startswith('-') else ('a', 'b')
        self.compare('--html', 'page.html', *words, *runs)
        return self.written()

    def page_of(self, first: Conversation, second: Conversation, *words: str) -> Node:
        """The page of two runs of one connection."""
        self.put_both(first, second)
        return self.page(*words)

    def opened(self, browser: Browser, *words: str) -> Node:
        """The page of two runs, which Chromium shows."""
        page = self.page(*words)
        browser.open(self.path('page.html'))
        return page


# --- Made runs ---

def mounted(path: bytes, steps: Sequence[Exchange]) -> Conversation:
    """A mount, whose folder has the handle `top`, and steps after it."""
    calls, replies = conversation_of(steps, 2)
    return ([call(1, MOUNT, 3, 1, opaque(path)), *calls],
            [success(1, ok(fh(b'top'), array([]))), *replies])


def looked_up(name: bytes, handle: bytes, fileid: int | None = None) -> Exchange:
    attributes = None if fileid is None else fattr(1, fileid)
    return LOOKUP, dirop(b'top', name), ok(fh(handle), post_op_attr(attributes), post_op_attr())


def asked(modes: Sequence[int], name: bytes = b'f') -> Conversation:
    """LOOKUP of a file of `/m` for each mode, and GETATTR, which returns the mode."""
    both = ((looked_up(name + b'%d' % at, b'%d' % at),
             (GETATTR, fh(b'%d' % at), ok(fattr(1, at + 2, 0, mode))))
            for at, mode in enumerate(modes))
    return mounted(b'/m', [*itertools.chain.from_iterable(both)])


def link(path: bytes, status: int = 0) -> Conversation:
    results = failed(status, post_op_attr()) if status else ok(post_op_attr(), opaque(path))
    return conversation_of([(READLINK, fh(b'link'), results)])


def gets(modes: Sequence[int], made_before: Sequence[int] = ()) -> Conversation:
    """GETATTR of one file with each mode in turn; before some a MKDIR of another name."""
    steps = list[Exchange]()
    for index, mode in enumerate(modes):
        steps += [(MKDIR, dirop(b'top', b'new%d %d' % (index, at)) + sattr(), failed(ACCES, wcc()))
                  for at in range(made_before.count(index))]
        steps.append((GETATTR, fh(b'file'), ok(fattr(1, 5, index, mode))))
    return conversation_of(steps)


def with_modes(number: int, *changed: int) -> list[int]:
    """The mode 0640 so many times, and 0600 at some indexes."""
    return [0o600 if at in changed else 0o640 for at in range(number)]


SENTENCE = b'This is the same in every run, and it is long enough that nobody reads all of it.\n'


def worked(text: bytes, *made_at: int) -> Conversation:
    """A file that is written and read among 40 GETATTRs, with SETATTRs of another."""
    steps = [looked_up(b'f1', b'f1', 7), looked_up(b'f2', b'f2', 8)]
    count, at_0 = word(len(text)), fh(b'f2') + hyper(0)
    for at in range(40):
        steps.append((GETATTR, fh(b'f2'), ok(fattr(1, 8, at))))
        if at == 10:
            steps.append((WRITE, at_0 + count + word(2) + opaque(text),
                          ok(wcc(), count, word(2), bytes(8))))
        if at in (15, 20):
            steps.append((READ, at_0 + word(4096),
                          ok(post_op_attr(), count, word(1), opaque(text))))
        steps += [(SETATTR, fh(b'f1') + sattr(mode=0o640) + guard(), ok(wcc()))] * made_at.count(at)
    return mounted(b'/hold', steps)


NULLS = [call(at, NFS, 3, 0) for at in range(5)], [success(at) for at in range(5)]


# --- What a page says of both runs ---

def runs_of(page: Node) -> dict[str, list[str]]:
    return {row[0]: row[1:] for row in table_of(page.all('table', 'runs')[0])}


def head_and_counts(place: Compared) -> None:
    """The verdict, both runs and what is masked, with the frames of tshark."""
    page = place.page(FIRST, CHANGED)
    about, = page.all('details', 'about')
    place.want('words', (page.texts('h1'), 'open' in about.attributes, about.texts('summary')),
               (['The runs differ'], False, ['About these runs']))
    summary = '; '.join(['103 of 103 calls matched', *(
        f'{name} in 1 reply' for name in ('rtmax', 'rtpref', 'wtmax', 'wtpref'))])
    place.want('said', (about.texts('code')[0], f'{summary}.' in about.texts('p'),
                        'times=zero, stamps=zero' in page.all('dl')[0].text()),
               ('differ at connection 2 server record 2', True, True))
    place.want('all of it', [len(page.all(tag)) - len(about.all(tag)) for tag in ('table', 'dl')],
               [1, 0])
    runs = table_of(about.all('table', 'runs')[0])
    place.want('runs', runs[:7], [
        ['', '- first run', '+ second run'], ['name', FIRST, CHANGED],
        ['file', '63,396 bytes', '63,396 bytes'],
        ['first frame', '2026-11-24 10:22:02.527555000 UTC, frame 4',
         '2026-11-24 10:22:29.141916000 UTC, frame 4'],
        ['last frame', '2026-11-24 10:22:02.534426000 UTC, frame 223',
         '2026-11-24 10:22:29.156347000 UTC, frame 223'],
        ['calls', '103', '103'], ['connections', '3', '3']])
    place.want('no losses', {row[0] for row in runs} & {'missing', 'calls left out',
                                                        'only in this run'}, set())


def what_does_not_count(place: Compared) -> None:
    """What is left out, known or missing is in the table of both runs, or below it."""
    calls, replies = gets(with_modes(9, 3, 4))
    again = conversation_of([(GETATTR, fh(b'file'), ok(fattr(1, 5, 8, 0o640)))], 99)
    place.write('known', '* reply: *mode=* ×*\n'.encode())
    page = place.page_of((calls + again[0], replies + again[1]), gets(with_modes(9)),
                         '--known=known')
    runs = runs_of(page)
    place.want('left out', (runs['calls left out'], 'only in this run' in runs,
                            'first frame' in runs), (['1 GETATTR', 'nothing'], False, False))
    place.want('known', ('differs in what is known' in page.text(),
                         [one for one in rows_and_gaps(page) if one[0] == '≠']),
               (True, ['≠ 4 4', '≠ 5 5']))
    talk = Talk()
    frames = [*talk.opened(), *(talk.sent(side, fragment(NULLS[side][at]))
                                for at in range(4) for side in (0, 1))]
    place.write('lossy', pcap([*frames[:-1], *talk.closed()]))
    page = place.page('--allow-losses', 'lossy', 'lossy')
    place.want('missing', (runs_of(page)['missing'],
                           [(one.text(), one.classes) for one in page.all('h1')]),
               (['28 bytes'] * 2, [('The runs are the same in part', ['part'])]))
    place.put('c', gets([1]))
    place.want('a capture has no times',
               runs_of(place.page('c', 'lossy'))['first frame'][0], 'no frames')


def verdicts_in_words(place: Compared) -> None:
    """Pages of runs that are the same, in another order, and without calls."""
    place.put('a', NULLS)
    place.put('b', NULLS, ([], []))
    for heading, remark, calls, *words in (
            ('are the same', 'Nothing differs but what is masked.',
             '103 equal calls in 3 connections', FIRST, SECOND),
            ('are the same in another order', 'Nothing differs but the order.',
             '100 equal calls in 12 connections', *CONCURRENT[:2]),
            ('differ', 'Only which messages share a value, or empty connections, can.',
             '5 equal calls in 1 connection')):
        page = place.page(*words)
        place.want(heading, (page.texts('h1'), remark in page.text(),
                             page.all('section')[-1].text()),
                   ([f'The runs {heading}'], True, 'Calls' + calls))
    place.put('b', ([], []))
    place.want('no calls', (place.compare('--html', 'none', 'a', 'b')[0], place.read('none')),
               (2, None))


def glance_of(page: Node) -> str:
    return ''.join(page.texts('p', 'glance'))


def listed(*names: bytes) -> Conversation:
    some = entries(None, bytes(8), [entry(1, name, 0) for name in names], is_end=True)
    return conversation_of([(READDIR, fh(b'top') + bytes(20), ok(some))])


def at_a_glance(place: Compared) -> None:
    """Under the title is what differs, with paths, and values that all messages have."""
    place.want('a recording', glance_of(place.page(FIRST, CHANGED)),
               'rtmax, rtpref, wtmax, .. of /mem (1 FSINFO reply)')
    text, calls = worked(SENTENCE), '(1 WRITE, 2 READs)'
    for first, second, *words in (
            (text, worked(SENTENCE[:20], 30, 31), f'bytes of /hold/f2 {calls}',
             '2 SETATTRs only in the second run: /hold/f1',
             'count of /hold/f2: 82 → 20 (1 WRITE)',
             'count of /hold/f2: 82 → 20 (3 replies to WRITE, READ)'),
            (asked([0o640] * 3), asked([0o640, 0o600, 0o600]),
             'obj.mode of 2 paths, the first /m/f1: 0640 → 0600 (2 GETATTR replies)'),
            (asked([0o640] * 3), asked([0o641, 0o600, 0o600]),
             'obj.mode of 3 paths, the first /m/f0 (3 GETATTR replies)'),
            (link(b'x'), link(b'y', ACCES), 'status: NFS3_OK → NFS3ERR_ACCES (1 READLINK reply)'),
            (link(b'x'), link(b'y'), 'path: "x" → "y" (1 READLINK reply)'),
            (link(b'x' * 62), link(b'y'), 'path (1 READLINK reply)'),
            (listed(b'a'), listed(b'a', b'b'), 'entry.name (1 READDIR reply)'),
            (text, worked(SENTENCE.replace(b'same', b'sAme'), 30),
             f'1 byte of /hold/f2 {calls}',
             '1 SETATTR only in the second run: /hold/f1 mode 0640')):
        page = place.page_of(first, second)
        place.want(f'{words}', glance_of(page).split(' · '), words)
    place.want('paths', page.all('p', 'glance')[0].texts('code'), ['/hold/f2', '/hold/f1'])
    order = [node.tag for node in page.nodes()
             if node.tag in ('h1', 'section') or {'glance', 'about'} & set(node.classes)]
    place.want('order', order, ['h1', 'p', 'details', 'section', 'section', 'section'])
    (made, replies), turned = asked([1, 2, 3]), (0, 1, 2, 5, 6, 3, 4)
    page = place.page_of((made, replies), ([made[at] for at in turned], replies), '--order=strict')
    place.want('turned', glance_of(page), '2 calls reordered')
    place.put('a', asked([0o640]), gets([0o640]))
    place.put('b', asked([0o600]), gets([0o600]))
    place.want('a path is not known', glance_of(place.page()),
               'obj.mode of /m/f0 and others: 0640 → 0600 (2 GETATTR replies)')
    place.put('a', NULLS, gets([1, 2]))
    place.put('b', NULLS)
    place.want('a connection', glance_of(place.page()), '1 connection only in the first run')


# --- What differs ---

def kinds_of_differences(place: Compared) -> None:
    """Each field of each procedure has its count, which leads to the first finding that has it."""
    place.put('a', asked([0o640] * 3), gets([0o640, 0o600]), link(b'x'))
    place.put('b', asked([0o640, 0o600, 0o600]), gets([0o640, 0o604], [1]), link(b'y'))
    page = place.page()
    table = page.all('table')[1]
    place.want('counts', (page.texts('h2')[1], table_of(table)[1:]), (
        '4 differences in 5 messages', [
            ['GETATTR', 'obj.mode 3', '2 paths'],
            ['MKDIR', 'only in the second run 1', '/m/new1 0'], ['READLINK', 'path 1', '']]))
    articles = {'#' + one.attributes['id']: one.text() for one in page.all('article')}
    links = [one.attributes['href'] for one in table.all('a')]
    place.want('links', (links, broken_links(page)), (['#f1', '#f3', '#f4'], []))
    place.want('where they lead', [said in articles[name] for name, said in zip(
        links, ('obj.mode=0640 (416)', 'MKDIR', 'path='))], [True] * 3)


def changes_of(node: Node) -> list[str]:
    return [one.text() for change in node.all('div', 'change') for one in change.all('div')]


def differences(place: Compared) -> None:
    """A finding has its path, both positions with frames and filters, and values."""
    with open(CHANGED, 'rb') as file:
        content = file.read()
    ends = [24]
    while ends[-1] < len(content):
        ends.append(ends[-1] + 16 + int.from_bytes(content[ends[-1] + 8:ends[-1] + 12], 'little'))
    place.write('run.pcap1', content[:ends[15]])
    place.write('run.pcap2', content[:24] + content[ends[15]:])
    article, = place.page(FIRST, 'run.pcap*').all('article')
    place.want('heading', article.texts('h3'), ['1 FSINFO reply /mem'])
    where = 'connection 2 server record 2 (frame 21)'
    place.want('positions', article.texts('div', 'place'),
               [f'-{where} frame.number == 21', f'+{where} run.pcap2: frame.number == 6'])
    place.want('to copy', (article.texts('code', 'filter'), len(article.all('button', 'copy'))),
               (['frame.number == 21', 'frame.number == 6'], 2))
    place.want('values', changes_of(article), [
        line for name in ('rtmax', 'rtpref', 'wtmax', 'wtpref')
        for line in (f'- {name}=67108864', f'+ {name}=65536')])


def differences_that_say_the_same(place: Compared) -> None:
    """They are one, with 300 positions. What one run alone has is said with its arguments."""
    page = place.page_of(asked([0o640] * 400), asked([0o600] * 352 + [0o640] * 48))
    article, = page.all('article')
    others, position = article.texts('li'), 'connection 1 server record %d'
    place.want('many', (article.texts('h3'), page.texts('h2')[1], article.texts('summary'),
                        article.texts('p')[-1], len(others), others[0], others[-1]), (
        ['1 352 replies of GETATTR /m/f0, the first of 352 paths'],
        '1 difference in 352 messages', ['351 positions more'], '.. and 51 more',
        300, f'/m/f1: {position % 5} | {position % 5}',
        f'/m/f300: {position % 603} | {position % 603}'))
    calls, replies = asked([1])
    more = conversation_of([(GETATTR, fh(b'0'), ok(fattr(1, 2, 0, 1)))], 9)
    page = place.page_of((calls, replies), (calls + more[0], replies + more[1]), '--extra=none')
    place.want('no arguments', page.texts('p', 'quiet')[:1], ['It has no arguments but its path.'])
    place.put('a', gets([1] * 4))
    place.put('b', gets([1] * 4), gets([5] * 6, range(6)))
    article, = place.page('b', 'a').all('article')
    place.want('a connection of one run', article.texts('h3') + article.texts('p'), [
        '1 only in the first run: connection 2',
        'a connection of 12 calls that the other run does not have', 'among the calls around it'])


def marked_bytes(place: Compared) -> None:
    """The bytes that differ are marked, in digits and in text."""
    def lines(first: Conversation, second: Conversation) -> list[Node]:
        return place.page_of(first, second).all('article')[0].all('div', 'change')[0].all('div')[
            -2:]
    same = worked(SENTENCE), worked(SENTENCE.replace(b'same', b'sAme'))
    for what, both, texts, marks in (
            ('a letter', same, ['- data=..697320746865207361' '6d6520696e2065.. is the same in e',
                                '+ data=..697320746865207341' '6d6520696e2065.. is the sAme in e'
                                ' # 1 of 82 bytes differs, at offset 13 of the file (byte 13 of '
                                'the data)'],
             [['61', 'a'], ['41', 'A']]),
            ('short', (worked(b'ab<c'), worked(b'xb<cd')),
             ['- data=61623c63 ab<c', '+ data=78623c6364 xb<cd'],
             [['61', 'a'], ['78', '64', 'x', 'd']]),
            ('a name', (link(b'target 1'), link(b'target <')),
             ['- path="target 1"', '+ path="target <"'], [['1'], ['<']])):
        found = lines(*both)
        place.want(what, ([one.text() for one in found], [one.texts('mark') for one in found]),
                   (texts, marks))
    found = lines(worked(bytes(range(128, 160))), worked(bytes(range(129, 161))))
    place.want('no text', [(one.texts('span', 'text'), len(one.all('mark'))) for one in found],
               [([], 1)] * 2)


# --- Calls ---

def fields_of(node: Node) -> list[list[str]]:
    """The lines of each message whose fields are in an element."""
    return [''.join(map(str, one.parts)).splitlines() for one in node.all('div', 'fields')]


def fields_of_calls(place: Compared) -> None:
    """A row has the fields of its call and replies, both if they differ."""
    rows = place.page_of(gets(with_modes(5)), gets(with_modes(5, 2))).all('details', 'row')
    place.want('rows', [row.texts('summary')[0].split(' record')[0] for row in rows],
               [f'{mark} GETATTR' for mark in '==≠=='])
    place.want('folded', [one.attributes.get('open') for row in rows
                          for one in (row, *row.all('details', 'head'))], [None] * 15)
    arguments, head, reply, _ = fields_of(rows[2])
    place.want('call', (arguments, head[0], head[-1],
                        [line for line in reply if line.startswith(('obj.mode', 'obj.size'))]),
               (['fh=66696c65'], 'mtype=0 (CALL)', 'verf_body=', ['obj.size=2']))
    parts = [node.attributes.get('class') for node in rows[2].nodes()
             if node.tag in ('div', 'details') and node.classes]
    place.want('order', (parts, [one.attributes['href'] for one in rows[2].all('a')]), (
        ['fields', 'head', 'fields', 'change', 'minus', 'plus', 'fields', 'head', 'fields'],
        ['#f1']))
    cut, failed_one, added = (
        place.page_of(*both).all('details', 'row') for both in (
            (link(b'x' * 1_200), link(b'x' * 1_100 + b'y' + b'x' * 99)),
            (link(b'x' * 1_200), link(b'x', ACCES)), (worked(SENTENCE), worked(SENTENCE, 30))))
    more = [row for row in added if row.text().startswith('+')]
    for what, some, wanted in (
            ('first', [rows[2]], ['- obj.mode=0640 (416)', '+ obj.mode=0600 (384)']),
            ('values that are cut', cut, [
                f'- path=.."{16 * "x"}"..',
                f'+ path=.."{8 * "x"}y{7 * "x"}".. # 1 of 1,200 bytes differs, at byte 1100']),
            ('other layouts', failed_one, ['- status=0 (NFS3_OK)', '+ status=13 (NFS3ERR_ACCES)']),
            ('of one run', more, ['+ set.mode=0640 (416)'])):
        place.want(what, [changes_of(row) for row in some], [wanted])
    place.want('its fields', [line for line in fields_of(more[0])[0] if 'mode' in line],
               ['+\u00a0set_mode=1 (TRUE)'])


def long_messages(place: Compared) -> None:
    """A finding has 200 fields at most, and a message in a row 6,000 characters of fields."""
    page = place.page_of(*(conversation_of([
        (READDIRPLUS, fh(b'top') + bytes(24), ok(entries(None, bytes(8), [
            entryplus(at, b'%03d' % at, at, fattr(1, at, mode=mode), b'%d' % at)
            for at in range(300)], is_end=True)))]) for mode in (0o640, 0o600)))
    values = changes_of(page.all('article')[0])
    place.want('a long finding', (len(values), values[0], values[-2:]), (
        401, '- entry "000".mode=0640 (416)',
        ['+ entry "199".mode=0600 (384)', '.. and 100 more fields']))
    # (the head of RPC is by itself, and so are the 300 modes)
    lines, every = fields_of(page)[2], 3 + 300 * 24 + 2 - 300
    more = int(re.sub('[^0-9]', '', lines[-1]))
    place.want('a long message', (5_000 < sum(map(len, lines)) < 6_100, more + len(lines) - 1),
               (True, every))


def rows_and_gaps(page: Node) -> list[str]:
    """A sign and the records of each row, and the words of each gap."""
    found = []
    for node in page.all('section')[-1].nodes():
        if 'row' in node.classes:
            text = node.all('summary')[0].text()
            found.append(' '.join([text.split()[0], *re.findall(r'record (\d+)', text)]))
        elif 'gap' in node.classes:
            found.append(node.text())
    return found


def equal(*records: int, more: int = 0) -> list[str]:
    """Rows of equal calls, which have other numbers in the second run."""
    return [f'= {record} {record + more}' for record in records]


def calls_around(place: Compared) -> None:
    """Three equal calls are before and after each finding, and between them how many are equal."""
    calls, replies = gets(with_modes(50, 40))
    more = conversation_of([(4, fh(b'file') + word(1), ok(post_op_attr(), word(1)))] * 6, 900)
    for first, second, *wanted in (
            (gets(with_modes(100)), gets(with_modes(100, 1, 30, 34, 41, 99)),
             *equal(1), '≠ 2 2', *equal(3, 4, 5), '22 equal calls', *equal(28, 29, 30), '≠ 31 31',
             *equal(32, 33, 34), '≠ 35 35', *equal(36, 37, 38, 39, 40, 41), '≠ 42 42',
             *equal(43, 44, 45), '51 equal calls', *equal(97, 98, 99), '≠ 100 100'),
            (gets(with_modes(100)), gets(with_modes(100), [20] * 30 + [70]),
             '17 equal calls', *equal(18, 19, 20), *(f'+ {record}' for record in range(21, 51)),
             *equal(21, 22, 23, more=30), '44 equal calls', *equal(68, 69, 70, more=30), '+ 101',
             *equal(71, 72, 73, more=31), '27 equal calls'),
            (gets(with_modes(9), [4]), gets(with_modes(9)), '1 equal call',
             *equal(2, 3, 4), '- 5', *equal(6, 7, 8, more=-1), '2 equal calls'),
            ((more[0] + calls, more[1] + replies), gets(with_modes(50)),
             '37 equal calls, 6 calls of the first run left out', *equal(44, 45, 46, more=-6),
             '≠ 47 41', *equal(48, 49, 50, more=-6), '6 equal calls')):
        place.put('a', first, NULLS)
        place.put('b', second, NULLS)
        place.want(wanted[0], rows_and_gaps(place.page()),
                   [*wanted, '5 equal calls in 1 other connection'])


def calls_of_one_run(place: Compared) -> None:
    """A connection of one run shows its first call, and a call its place."""
    place.put('a', gets([1] * 4))
    place.put('b', gets([1] * 4), gets([5] * 3, range(3)), NULLS)
    page = place.page()
    shown = page.all('div', 'connection')[0].texts('h3')
    place.want('a connection', (rows_and_gaps(page), shown), (
        ['+ 1', '4 equal calls in 1 other connection'], ['connection 2 of the second run']))
    place.want('of the first run', rows_and_gaps(place.page('b', 'a')), [
        '- 1', '5 calls that differ',
        '4 equal calls, 5 calls of the first run left out in 2 other connections'])
    # One call changed its turn: it comes just before the added one.
    calls, replies = gets(range(60))
    added = conversation_of([(SETATTR, fh(b'file') + sattr(mode=0o640) + guard(), ok(wcc()))], 99)
    turned = [*calls[:5], *calls[6:40], calls[5], *added[0], *calls[40:]]
    rows = rows_and_gaps(place.page_of((calls, replies), (turned, replies + added[1]),
                                       '--order=strict'))
    place.want('turn', rows[rows.index('+ 41') - 1:][:3], ['= 40 39', '+ 41', '= 41 42'])


def how_much_is_shown(place: Compared) -> None:
    """There are at most so many findings, positions and calls, and then how many more."""
    page = place.page_of(gets([5_000] * 12 + list(range(2_490))),
                         gets([6_000] * 12 + list(range(3_000, 5_490))))
    articles, calls = page.all('article'), rows_and_gaps(page)
    place.want('findings', (len(articles), articles[-1].text()[:5], len(articles[0].all('li')),
                            articles[0].texts('p')[-1], broken_links(page)),
               (2_000, '2000 ', 10, '.. and 1 more', []))
    place.want('more', [one.text() for one in page.all('p') if one.attributes.get('id') == 'more'],
               ['.. and 491 messages more. --json FILE writes all.'])
    place.want('calls', (calls[0], calls[1_999], calls[-1], len(calls)),
               ('≠ 1 1', '≠ 2000 2000', '499 calls that differ', 2_004))
    calls = rows_and_gaps(place.page_of(gets([1] * 9), gets([1] * 9, [5] * 2_100)))
    place.want('of the second run', calls, [
        '2 equal calls', *equal(3, 4, 5), *(f'+ {record}' for record in range(6, 2_006)),
        '4 equal calls', '100 calls more are only in the second run'])
    page = place.page_of(gets(with_modes(6_000)),
                         gets(with_modes(6_000, *range(500, 6_000, 2_000))))
    size = len(place.read('page.html') or b'')
    place.want(f'{size} bytes', (size < 200_000, len(page.all('details', 'row')),
                                 page.texts('p', 'gap')), (True, 21, [
        '497 equal calls', *['1,993 equal calls'] * 2, '1,496 equal calls']))


def names_are_escaped(place: Compared) -> None:
    """Names of files, paths and values are text, and a page asks for nothing else."""
    first, second = (f'{letter}<script>document.title=3<' for letter in 'ab')
    path = '/m/' + HOSTILE.replace('"', '\\x22') + '0'
    for name, target in ((first, b'x'), (second, HOSTILE.encode())):
        read = conversation_of([(READLINK, fh(b'0'), ok(post_op_attr(), opaque(target)))], 9)
        place.put(name, tuple(map(list.__add__, asked([0o640], HOSTILE.encode()), read)))
    page = place.page(first, second)
    place.want('names', (runs_of(page)['name'], page.texts('title')),
               ([first, second], [f'differ: {first} and {second}']))
    place.want('path', page.all('article')[0].texts('code')[0], path)
    place.want('value', page.all('article')[0].texts('div', 'plus')[0][:24],
               '+ path="<script>document')
    place.want('row', page.all('details', 'row')[-1].texts('code')[0], path)
    script, style = (''.join(map(str, page.all(tag)[0].parts)) for tag in ('script', 'style'))
    outside = re.findall(r'url|http|fetch|XMLHttp|import[ (]|eval|innerHTML', script + style)
    place.want('asks for nothing', (asked_of_others(page), outside), ([], []))
    metas = {one.attributes.get('name'): one.attributes.get('content') for one in page.all('meta')}
    place.want('head', (metas['viewport'], metas['color-scheme']),
               ('width=device-width, initial-scale=1', 'light dark'))


# --- In Chromium ---

COLOURS = ('["body", ".change .minus"].map(one => '
           'getComputedStyle(document.querySelector(one)).color)')
# Whether each sign of a run is in one line with its position, and no filter is seen.
SIGNS_ARE_BESIDE = """[...document.querySelectorAll(".place")].every(one => {
  const [sign, words] = [...one.children].map(child => child.getBoundingClientRect());
  return words.top < sign.bottom && words.left >= sign.right
}) && [...document.querySelectorAll(".filter")].every(
  one => one.getBoundingClientRect().width <= 1)"""
# Whether a sign in the fields of a call is in the line of the handle after it.
SIGN_IS_BESIDE = r"""(() => {
  const text = document.querySelector('.row.told .fields').firstChild;
  const at = text.data.search(/\+.fh=/);
  const top = place => {
    const range = document.createRange();
    range.setStart(text, place);
    range.setEnd(text, place + 1);
    return range.getBoundingClientRect().top;
  };
  return at >= 0 && top(at) === top(at + 2);
})()"""


@in_chromium
def pages_in_chromium(place: Compared) -> None:
    """Pages load, fit, and can be read, light and dark, without scripts."""
    place.put('long', asked([0o640] * 3, b'x' * 200 + b' ' + b'/'.join([b'folder'] * 40)))
    place.put('hostile<script>document.title=3<', asked([0o600] * 3, HOSTILE.encode()))
    place.put('a', gets([1]))
    place.put('b', gets([1]),
              conversation_of([(MKDIR, dirop(b'h' * 64, b'new') + sattr(), failed(ACCES, wcc()))]))
    with place.browser() as browser:
        for words in ((FIRST, CHANGED), (FIRST, SECOND),
                      ('long', 'hostile<script>document.title=3<')):
            page = place.page(*words)
            place.loads(browser, f'{words}')
            place.want(f'{words}: title', browser.value('document.title'), *page.texts('title'))
        place.opened(browser, *CONCURRENT[::2])
        lights = []
        for is_dark in (False, True):
            browser.open(place.path('page.html'), is_dark=is_dark)
            lights += map(light_of, browser.value(COLOURS))
        text, minus, dark_text, dark_minus = lights
        place.want('colours', (text < 0.1, minus < 0.2, dark_text > 0.8, dark_minus > 0.4),
                   (True,) * 4)
        for width in (320, *WIDTHS):
            browser.resize(width)
            place.want(f'signs, {width}', browser.value(SIGNS_ARE_BESIDE), True)
        browser.open(place.path('page.html'), has_scripts=False)
        place.want('without scripts', [browser.is_shown(one) for one in (
            'h1', '.about', 'article', '.filter', '.row', '.gap', '.bar', '.copy')],
            [True] * 6 + [False] * 2)
        place.opened(browser)
        browser.value('document.querySelectorAll("details").forEach(one => one.open = true)')
        for width in WIDTHS:
            browser.resize(width)
            place.want(f'a sign, {width}', browser.value(SIGN_IS_BESIDE), True)
        for text, number in (('+ name="new"', 1), ('- name="new"', 0)):
            find(browser, text)
            place.want(text, len(browser.value(VISIBLE % '.row')), number)
        place.want('errors', browser.errors, [])


# Whether an element is in sight, below the bar.
IN_SIGHT = """(() => {
  const box = document.querySelector("%s").getBoundingClientRect();
  return box.top >= document.querySelector(".bar").getBoundingClientRect().bottom
    && box.bottom <= innerHeight })()"""
HEADS = SHOWN % 'h2, h3' + '.filter(one => !one.closest("article")).map(one => one.textContent)'


@in_chromium
def keys_and_buttons(place: Compared) -> None:
    """n, p, buttons and links go to findings; in the field n is a letter."""
    place.put_both(gets(list(range(1_500))),
                   gets([2_000 + at if at % 9 == 5 else at for at in range(1_500)]))
    with place.browser() as browser:
        page = place.opened(browser)
        rows = [row.attributes['id'] for row in page.all('details', 'row') if row.all('a')]
        for act, key, wanted in (
                (browser.press, 'n', 'f1'), (browser.press, 'n', 'f2'), (browser.press, 'p', 'f1'),
                (browser.press, 'p', 'f1'), (browser.click, '#next', 'f2'),
                (browser.click, '#next', 'f3'), (browser.click, '#previous', 'f2')):
            act(key)
            place.want(f'{key} to {wanted}',
                       (browser.value(HERE), browser.value(IN_SIGHT % '.here')),
                       ([wanted], True))
        browser.click('#find')
        browser.press('n')
        place.want('a letter', (browser.value('find.value'), browser.value(HERE)), ('n', ['f2']))
        find(browser, '0150 (104)')
        shown = [one.attributes['id'] for some in (page.all('article'), page.all('details', 'row'))
                 for one in some if '0150 (104)' in one.text()]
        place.want('found', (browser.value(VISIBLE % 'article, .row, .gap'),
                             browser.value('found.textContent')[:12], browser.value(HEADS)),
                   (shown, '1 difference', ['1 difference in 1 message', 'Calls',
                                            'connection 1 | connection 1']))
        browser.value('find.blur()')
        browser.press('n')
        place.want('of those that are found', browser.value(HERE), ['f12'])
        browser.value('location.hash = "#f20", new Promise(done => setTimeout(done, 200))')
        browser.press('n')
        place.want('after a link, which shows all again',
                   (browser.value(HERE), browser.value('find.value')), (['f21'], ''))
        for width, number in itertools.product(WIDTHS, (len(rows), 20, 1)):
            browser.resize(width)
            browser.click(f'#f{number} p a')
            browser.value('new Promise(done => setTimeout(done, 300))')
            place.want(f'{width}, finding {number}', (browser.value('location.hash'), browser.value(
                IN_SIGHT % ':target')), (f'#{rows[number - 1]}', True))
            browser.click(f'#{rows[number - 1]} summary a')
            place.want(f'{width}, row of {number}', browser.value('location.hash'), f'#f{number}')
        place.want('errors', browser.errors, [])
        place.opened(browser, *CONCURRENT[::2])
        wanted_filter = browser.value('document.querySelector("#f2 .filter").textContent')
        browser.click('#f2 .copy')
        browser.click('#find')
        browser.ask('Input.dispatchKeyEvent', type='keyDown', key='v', commands=['paste'])
        place.want('copied', (browser.value('find.value'), wanted_filter[:16]),
                   (wanted_filter, 'frame.number == '))
