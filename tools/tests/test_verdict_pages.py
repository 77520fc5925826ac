"""Tests of the pages of tools/verdicts and tools/procedures, and of their use."""
import csv
import io
import math
import re
import shlex

from examples.messages import (
    MOUNT, NFS, STALE, array, call, dirop, failed, fattr, fh, fragment, ok, opaque, post_op_attr,
    success)
from examples.packets import Talk, pcap

from ..nfs3tools.pages.time_line import PIXEL_COLUMNS, Dot, TimeLine, of_time_line
from .pages import (
    HERE, HOSTILE, SHOWN, VISIBLE, WIDTHS, Node, Written, asked_of_others, broken_links, find,
    in_chromium, light_of, table_of, tree_of)
from .scripts import (
    CALLS, EXAMPLES, FIRST, REPLIES, TOP, connection_of, exchange, measured, whole, write_faulty)

GETATTR, LOOKUP = 1, 3
CONCURRENT = str(EXAMPLES / 'concurrent_a.pcap')
BAD = tuple(str(EXAMPLES / f'bad_{name}.pcap')
            for name in ('bool', 'client_record', 'server_record', 'status'))
BOTH = ('verdicts', 'procedures')
FORMATS = (TOP / 'docs/FORMATS.md').read_text().replace('`tools/', 'tools/')
MANY, ERRORS_AT_MOST, MOST_MEMORY = 22_000, 10_000, 48 << 20
COUNTS = ('judged', 'in part', 'left out', 'not checked', 'errors')
DOT = re.compile(r'(.*); connection (\d+) client record (\d+), frame (\d+), '
                 r'(no latency|(\d+\.\d{3}) ms)')


# Recordings, and how their headings look and begin.
HEADINGS = {
    'ok.pcap': 'same Every call', 'lost.pcap': 'part Not all', 'cut.pcap': 'part Not all',
    'damaged.pcap': 'differ Not all could', 'none.pcap': 'differ Not all could',
    'text': 'differ Not all could', 'bad.pcap': 'differ 1 of 2', 'cut.nfs3cap': 'differ 1 of',
    'other.pcap': 'part Not all'}


def write_kinds(tools: Written, version: int) -> None:
    """Writes recordings of all kinds, one of another version of NFS."""
    write_faulty(tools)
    other = connection_of([call(at, NFS, version, 1) for at in range(3)],
                          [success(at) for at in range(3)])
    for name, frames in (('bare.pcap', [*whole(), *Talk(800, 4000).opened()]),
                         ('other.pcap', other), ('ok.pcap', whole()), ('raw.pcap', connection_of(
                                 [call(1, 100000, 2, 3)], [success(1)], service=111))):
        tools.write(name, pcap(frames))


def counts_of(page: Node) -> dict[str, int]:
    texts = page.all('ul', 'counts')[0].texts('li')
    return {re.sub(r' \(.*', '', text.partition(' ')[2]): int(text.split()[0].replace(',', ''))
            for text in texts}


def greens_of(page: Node) -> list[str]:
    """All that looks good: headings, counts and verdicts."""
    return [node.text() for node in page.nodes() if {'same', 'plus'} & set(node.classes)]


def head_and_counts(tools: Written) -> None:
    """The heading, the counts and the status are those of the tool."""
    write_kinds(tools, 4)
    for name, wanted in HEADINGS.items():
        status, out, page = tools.page('procedures' if name == 'lost.pcap' else 'verdicts', name)
        heading, = page.all('h1')
        said = f'{heading.attributes.get("class", "")} {heading.text()}'
        sums = next(line for line in out.splitlines()[::-1] if ' judged (' in line)
        numbers = [int(found[1]) for word in COUNTS if (found := re.search(rf'(\d+) {word}', sums))]
        tools.want(name, (said[:len(wanted)], [counts_of(page).get(word) for word in COUNTS],
                          f'The status is {status}' in page.text()), (wanted, numbers, True))


def what_is_green(tools: Written) -> None:
    """Nothing is green but what was judged; without a call, or allowed, it is said."""
    write_kinds(tools, 4)
    judged = '1 judged (1 valid, 0 refused)'
    _, _, page = tools.page('verdicts', 'lost.pcap', 'ok.pcap', 'other.pcap', 'bad.pcap')
    words = [[row[-1].partition(':')[0] for row in table_of(table)[1:]]
             for table in page.all('table')[:2]]
    tools.want('verdicts', (greens_of(page), words), (['ok', 'ok', judged], [
        ['server record 2 byte 0', 'in part', 'not checked'], ['ok', 'ok']]))
    for names, wanted_open in ((('ok.pcap', 'bad.pcap'), False), (('ok.pcap',), True)):
        folded, = tools.page('verdicts', *names)[2].all('details', 'valid')
        tools.want(f'folded, {names}', 'open' in folded.attributes, wanted_open)
    _, _, page = tools.page('procedures', 'raw.pcap', 'lost.pcap')
    own = [counts.texts('li')[:2] for counts in page.all('ul', 'counts')]
    one, none = '1 judged (1 ok, 0 refused)', '0 judged (0 ok, 0 refused)'
    tools.want('of each', (own, 'ok in part' in page.text(), greens_of(page)),
               ([[one, '1 in part'], [one, '0 in part'], [none, '1 in part']], False, []))
    _, _, page = tools.page('procedures', 'ok.pcap')
    tools.want('of times', ('valid' in page.text(), greens_of(page)), (False, []))
    _, _, page = tools.page('verdicts', 'raw.pcap')
    tools.want('raw', (table_of(page.all('table')[0])[1][-1], greens_of(page)[-1]),
               ('1 PORTMAP GETPORT raw', judged))
    for words, heading, greens, under in (
            (['bare.pcap'], '1 connection without a call is left out', [judged, 'ok'], ''),
            (['--allow-losses', 'lost.pcap'], 'Not all was judged', [], ' under --allow-losses'),
            (['--allow-not-checked', 'other.pcap'], 'Not all was judged', [],
             ' under --allow-not-checked')):
        status, _, page = tools.page('verdicts', *words)
        tools.want(f'{words}', (status, page.texts('h1'), greens_of(page),
                                f'The status is 0{under}.' in page.text()),
                   (0, [heading], greens, True))


def rows_printed(out: str) -> list[list[str]]:
    return [re.split(r'  +', line.strip()) for line in out.splitlines() if line]


def tables_as_printed(tools: Written) -> None:
    """The tables are those that the tools print."""
    _, out, page = tools.page('verdicts', FIRST, *BAD)
    wrong, valid = map(table_of, page.all('div', 'cards'))
    rows, printed = [*wrong, *valid[1:]], rows_printed(out)[:-1]
    heads = [cell.attributes['data-head'] for cell in page.all('tr', 'row')[0].all('td')]
    printed.sort(key=lambda row: row[6] == 'ok')
    tools.want('verdicts', (rows, heads), (printed, rows[0]))
    for words in (['--sort', 'calls', FIRST], ['--total', FIRST], ['--beside', FIRST, CONCURRENT]):
        _, out, page = tools.page('procedures', *words)
        # (numbers have separators there)
        found = [row for table in page.all('table') for row in table_of(table)]
        # (latencies are right after the calls)
        printed = [[*row[:2], *row[7:10], *row[2:7], *row[10:]] for row in rows_printed(out)
                   if row[0] == 'procedure' or len(row) > 8]
        tools.want(' '.join(words), sorted([re.sub(r'(?<=\d),(?=\d{3})', '', cell) for cell in row]
                                           for row in found), sorted(printed))
        if words[0] == '--sort':
            numbers = [int(row[1].replace(',', '')) for row in table_of(page.all('table')[0])[1:-1]]
            folded = [one.attributes.get('open') for one in page.all('details', 'others')]
            tools.want('sorted', (numbers, folded), (sorted(numbers, reverse=True), [None]))
    _, _, page = tools.page('procedures', FIRST, CONCURRENT)
    names = [node.attributes['id'] for node in page.nodes() if 'id' in node.attributes]
    tools.want('names of elements', sorted(names), sorted(set(names)))


def position_of(connection: str, position: str) -> str:
    side, record = position.replace('record ', '').split(' ', 1)
    return f'{connection}:{record}' if side == 'client' else f'{connection} server {record}'


def faults_with_their_fields(tools: Written) -> None:
    """A fault has its frames, and what tools/explain says of it."""
    _, _, page = tools.page('verdicts', *BAD)
    articles = page.all('article')
    tools.want('how many', (len(articles), page.texts('h2')[1]), (len(BAD), f'{len(BAD)} faults'))
    for name, article in zip(BAD, articles):
        position = article.texts('p', 'minus')[0].split(':')[0]
        frame = re.search(r'frame (\d+)', article.text())
        connection = article.texts('h3')[0].split()[-1]
        tools.want(f'{name}: filter', article.texts('code', 'filter'),
                   [f'frame.number == {frame[1] if frame else None}'])
        for number, place in enumerate((position, re.sub(r' byte \d+', '', position))):
            _, out, _ = tools.tool('explain', name, f'connection {connection} {place}')
            lines = [line for line in out.splitlines()[:-1]
                     if not line.startswith(('connection ', 'frame'))]
            written = ''.join(map(str, article.all('pre')[number].parts)).splitlines()
            reasons = [line for line in written if re.match(r'[A-Z]\w+: ', line)]
            tools.want(f'{name}: {place}', [line for line in written[1:] if line not in reasons],
                       lines)
            tools.want(f'{name}: reason', len(reasons), 1 - number)
        of_reason = re.search(r': (\w+), frame', article.text())
        row = re.search(rf'^\| `{of_reason and of_reason[1]}` \|[^|]*\|[^|]*\| ([^|]*) \|',
                        FORMATS, re.M)
        tools.want(f'{name}: cause', row and f'Likely cause: {row[1]}.' in article.text(), True)
        tools.want(f'{name}: commands', [shlex.split(line)[1:3] for line in article.texts(
            'code', 'command')], [[name, position_of(connection, position)]] * 2)
    tools.want('links', ([one.attributes['href'] for one in page.all('table')[0].all('a')],
                         broken_links(page)), (['#f1', '#f2', '#f3', '#f4'], []))
    tools.want('folded', [one.attributes.get('open') for one in page.all('details', 'others')],
               [None] * len(BAD))
    article, = tools.page('verdicts', str(EXAMPLES / 'bad_bool.nfs3cap'))[2].all('article')
    tools.want('a capture', (len(article.all('pre')), article.all('code', 'filter')), (2, []))


def dots_of(page: Node) -> list[tuple[str, float, float, list[str]]]:
    """The form and place of each dot, and what its title says."""
    found = []
    for use in page.all('use'):
        for title in use.texts('title'):
            read = DOT.fullmatch(title)
            place = float(use.attributes['x'].rstrip('%')), float(use.attributes['y'])
            found.append((use.attributes['href'][1:], *place,
                          [*(read.groups() if read else [title])]))
    return found


def dots_of_calls(tools: Written) -> None:
    """Each call has a dot, as tools/calls prints it; without a reply it is above."""
    for name, tool in ((FIRST, 'procedures'), (CONCURRENT, 'verdicts')):
        dots = dots_of(tools.page(tool, name)[2])
        found = {(dot[3][1], dot[3][2]): dot for dot in dots}
        _, out, _ = tools.tool('calls', '--csv', name)
        rows = list(csv.DictReader(io.StringIO(out)))
        tools.want(f'{name}: calls', sorted(found),
                   sorted((row['connection'], row['record']) for row in rows))
        for row in rows:
            form, _, _, words = found[row['connection'], row['record']]
            tools.want(f'{name}: {row}', (form, words[3:5], words[0].endswith(row['answer']),
                                          row['path'] in words[0]),
                       ('bad' if row['is_error'] == 'True' else 'good', [
                           row['frame'], f'{int(row["latency_ns"]) / 1_000_000:.3f} ms'],
                        True, True))
    heights = sorted((float(dot[3][5]), dot[2]) for dot in dots)
    tools.want('slower is higher', [height for _, height in heights],
               sorted((height for _, height in heights), reverse=True))
    (low, bottom), (high, top), (middle, height) = (heights[at] for at in (0, -1, len(dots) // 2))
    part = math.log(middle / low) / math.log(high / low)
    tools.want('log scale', abs(bottom - part * (bottom - top) - height) < 1.5, True)
    talk = Talk()
    frames = [*talk.opened(), *exchange(talk, calls=CALLS[:3], replies=REPLIES[:2])]
    for form, more in (('open', []), ('bad', talk.closed())):
        tools.write('a.pcap', pcap([*frames, *more]))
        dots = dots_of(tools.page('verdicts', 'a.pcap')[2])
        tools.want(form, ([dot[0] for dot in dots], dots[-1][3][4],
                          dots[-1][2] < min(dot[2] for dot in dots[:2])),
                   (['good', 'good', form], 'no latency', True))
    _, _, page = tools.page('procedures', str(EXAMPLES / 'every_procedure.nfs3cap'))
    said = re.findall(r'\d+ calls have no time, and are not drawn\.', page.text())
    tools.want('a capture', (len(page.all('svg', 'line')), len(said)), (0, 1))


def forms_of_a_line(tools: Written) -> None:
    """A time line of any times and latencies has a few round labels."""
    for end in (0, 1, 999, 1_000, 7_300_000, 10 ** 9, 59 * 10 ** 9, 3_600 * 10 ** 9,
                604_800 * 10 ** 9):
        dots = [Dot(end * at // 3, latency, False, 'x')
                for at, latency in enumerate((0, -5, 10, 10 ** 10))]
        page = tree_of(''.join(of_time_line(TimeLine(dots, end, 4))))
        texts = [(one.attributes['text-anchor'], one.text()) for one in page.all('text')]
        labels = [text for anchor, text in texts if anchor == 'middle']
        tools.want(f'{end}: labels', (1 <= len(labels) <= 6, labels[0][:2], len(set(labels))),
                   (True, '0 ', len(labels)))
        places = [(float(one.attributes['x'].rstrip('%')), float(one.attributes['y']))
                  for one in page.all('use')[:4]]
        tools.want(f'{end}: dots', [0 <= x <= 100 and 40 <= y <= 290 for x, y in places],
                   [True] * 4)
    tools.want('heights', [text for anchor, text in texts if anchor in ('start', 'end')], [
        'no reply', '10 ns', '100 ns', '1 µs', '10 µs', '100 µs', '1 ms', '10 ms', '100 ms', '1 s',
        '10 s', 'time from the first frame', 'latency, log scale'])


def many_calls(tools: Written) -> None:
    """Errors and the slowest calls are drawn, and how many are left out is said."""
    talk = Talk()
    frames = talk.opened()
    for xid in range(MANY):
        frames.append(talk.sent(0,
                                fragment(call(xid, NFS, 3, GETATTR, fh(b'%032d' % (xid % 5_000))))))
        result = failed(STALE) if xid % 2 else ok(fattr(1, 5))
        frames.append(talk.sent(1, fragment(success(xid, result))))
    tools.write('a.pcap', pcap(frames))
    status, _, _, memory = measured(tools, 'verdicts', '--program', tools.program, '--html',
                                    'page.html', 'a.pcap')
    tools.want('memory', (status, memory <= MOST_MEMORY or memory), (0, True))
    size, page = len(tools.read('page.html') or b''), tools.written()
    tools.want(f'{size} bytes', size <= 3_000_000, True)
    dots = dots_of(page)
    errors = [int(dot[3][2]) for dot in dots if dot[0] == 'bad']
    tools.want('errors', errors[:ERRORS_AT_MOST], [*range(2, 2 * ERRORS_AT_MOST + 1, 2)])
    tools.want(f'{len(dots)} dots', len(dots) - len(errors) <= PIXEL_COLUMNS < len(dots), True)
    said = re.search(r'([\d,]+) of 22,000 calls are drawn: .* ([\d,]+) are left out, ([\d,]+) of '
                     r'them errors', page.text())
    tools.want('said', said and [int(word.replace(',', '')) for word in said.groups()],
               [len(dots), MANY - len(dots), MANY // 2 - len(errors)])


def names_and_outputs(tools: Written) -> None:
    """Names are text, nothing else is asked for, and each recording has its line."""
    name, odd = 'a<script>document.title=3<.pcap', HOSTILE + '  two  spaces'
    calls = [call(1, MOUNT, 3, 1, opaque(b'/m')),
             call(2, NFS, 3, LOOKUP, dirop(b'top', odd.encode()))]
    replies = [success(1, ok(fh(b'top'), array([]))),
               success(2, ok(fh(b'x'), post_op_attr(), post_op_attr()))]
    tools.write(name, pcap(connection_of(calls, replies)))
    for tool, title in zip(BOTH, ('Every call of NFS and MOUNT version 3 is valid',
                                  '2 calls, 0 without a reply, slowest MOUNT MNT 1 µs')):
        _, _, page = tools.page(tool, name)
        tools.want(tool, (asked_of_others(page), page.texts('title')[0], HOSTILE.replace(
            '"', '\\x22') in dots_of(page)[-1][3][0]), ([], f'{title}: {name}', True))
        tools.want('spaces', b'  two  spaces' in (tools.read('page.html') or b''), True)
    tools.write('text.pcap', b'text')
    tools.write('a.pcap', pcap(whole()))
    status, _, page = tools.page('verdicts', '-j', '2', 'a.pcap', FIRST, 'text.pcap')
    tools.want('several', (status, len(page.all('svg', 'line')), page.texts('h1')),
               (1, 2, ['Not all could be read']))


DOTS = """["good", "bad"].map(name => {
  const box = document.querySelector(`svg.line use[href="#${name}"]`).getBoundingClientRect();
  return [getComputedStyle(document.querySelector("#" + name)).fill, box.width, box.height] })"""
DOTS_ARE_INSIDE = """[...document.querySelectorAll(".line use")].every(one => {
  const dot = one.getBoundingClientRect(), box = one.closest("svg").getBoundingClientRect();
  return dot.left >= box.left - 6 && dot.right <= box.right + 6 && dot.bottom <= box.bottom })"""
CHOSEN = """(dot => {
  dot.dispatchEvent(new Event("click", {cancelable: true}));
  const panel = document.querySelector(dot.getAttribute("href"));
  return [dot.textContent, dot.dataset.place, [panel.firstChild.textContent,
    ...[...panel.querySelectorAll(".command")].map(one => one.textContent)]] })(
  document.querySelector(".line a"))"""
VERDICTS_ARE_SEEN = """[...document.querySelectorAll(".cards td:last-child")].every(one => {
  const box = one.getBoundingClientRect();
  return box.left >= 0 && box.right <= innerWidth && box.height > 0 })"""
NUMBERS = """[...document.querySelector(".wide table").tBodies[0].rows].map(
  row => Number(row.cells[1].textContent.replaceAll(",", "")))"""
MOST = """(one => [one.textContent, one.getBoundingClientRect().right < innerWidth])(
  [...document.querySelectorAll(".wide th")].find(one => one.textContent == "most ms"))"""


@in_chromium
def pages_in_chromium(tools: Written) -> None:
    """Pages load and fit, and errors have another form and colour."""
    with tools.browser() as browser:
        for words in (('verdicts', CONCURRENT), ('procedures', '--beside', FIRST, CONCURRENT),
                      ('meaning', FIRST, *BAD), ('report', FIRST, *BAD),
                      ('verdicts', FIRST, *BAD)):
            tools.page(*words)
            tools.loads(browser, ' '.join(words))
        for is_dark in (False, True):
            browser.open(tools.path('page.html'), is_dark=is_dark)
            good, bad = browser.value(DOTS)
            tools.want(f'{is_dark}: colours', (good[0] != bad[0], [
                light_of(fill) > 0.3 if is_dark else light_of(fill) < 0.4
                for fill in (good[0], bad[0])]),
                (True, [True] * 2))
            tools.want(f'{is_dark}: sizes', [4 < dot[1] < 16 for dot in (good, bad)], [True] * 2)
        tools.want('inside', browser.value(DOTS_ARE_INSIDE), True)
        title, place, chosen = browser.value(CHOSEN)
        tools.want('the call of a dot', chosen[0][:len(title)] == title and [
            shlex.split(line)[2] for line in chosen[1:]], [place] * 2)
        browser.resize(WIDTHS[0])
        tools.want('in sight', browser.value(VERDICTS_ARE_SEEN), True)
        browser.open(tools.path('page.html'), has_scripts=False)
        tools.want('without scripts', [browser.is_shown(one) for one in (
            'h1', '.counts', 'table', 'article', 'pre', '.filter', '.line', '.bar', '.copy')],
            [True] * 7 + [False] * 2)
        tools.want('errors', browser.errors, [])


@in_chromium
def keys_and_buttons(tools: Written) -> None:
    """Columns sort both ways, the field hides, n goes from fault to fault."""
    with tools.browser() as browser:
        tools.page('procedures', '--total', FIRST)
        browser.open(tools.path('page.html'))
        before = browser.value(NUMBERS)
        for is_up in (False, True):
            browser.value('document.querySelectorAll(".wide th")[1].click()')
            tools.want(f'sorted {is_up}', browser.value(NUMBERS),
                       [*sorted(before[:-1], reverse=not is_up), before[-1]])
        tools.want('latencies are in sight', browser.value(MOST), ['most ms', True])
        tools.want('no keys without faults', browser.value(SHOWN % '#next'), [])
        tools.page('verdicts', FIRST, *BAD)
        browser.open(tools.path('page.html'))

        def shown(text: str) -> list[object]:
            find(browser, text)
            return [browser.value(VISIBLE % 'article'),
                    *(browser.value(SHOWN % one + '.length') for one in ('tr.row', 'h2'))]
        every = shown('')
        tools.want('all', every[:2], [['f1', 'f2', 'f3', 'f4'], 4])
        tools.want('one', shown('BadBool')[:2], [['f1'], 1])
        tools.want('none', shown('nothing has this'), [[], 0, 0])
        tools.want('all again', shown(''), every)
        browser.value('find.blur()')
        browser.press('n')
        browser.press('n')
        tools.want('keys', browser.value(HERE), ['f2'])
        browser.click('#f2 .copy')
        tools.want('copied', browser.value(SHOWN % '#f2 .copied' + '.length'), 1)
        tools.want('errors', browser.errors, [])
