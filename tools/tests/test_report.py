"""Tests of `tools/report`."""
from examples.packets import pcap

from .pages import tree_of
from .scripts import EXAMPLES, FIRST, Tools, sums, whole
from .test_calls import hung


def answers(tools: Tools, name: str, *words: str) -> tuple[int, dict[str, list[str]]]:
    """The status, and the lines below each question."""
    status, out, error = tools.tool('report', *words, name)
    tools.want(f'standard error of {name}', 'Traceback' in error, False)
    found, key = dict[str, list[str]](), ''
    for line in out.splitlines():
        key = line[:10].strip() or key
        found.setdefault(key, []).append(line[10:])
    return status, found


def numbers_of_the_other_tools(tools: Tools) -> None:
    """Each question has the count of its tool, and the status is the worst."""
    status, found = answers(tools, FIRST)
    meant, listed, _ = tools.tool('meaning', '--all', FIRST)
    slowest = tools.tool('calls', '--sort', 'latency', FIRST)[1].splitlines()[1].split()
    tools.want('ganesha', (status, found['verdicts'], found['no reply'], found['errors'],
                           found['meaning'][0], found['who'], found['slowest'][0].split()[:4]), (
        meant, [sums(3)], ['0 calls'], ['NFS3ERR_NOENT 1'],
        '7 findings, 0 notes in 97 calls with a reply', ['0@127.0.0.1 103'],
        [slowest[1], 'ms', slowest[3], 'frame']))
    tools.want('findings', len([line for line in listed.splitlines() if '  frame ' in line]), 7)
    tools.want('next', [line.split()[:2] for line in found['next']], [
        ['tools/calls', '--errors'], ['tools/meaning', '--all'], ['tools/procedures', '--total'],
        ['tools/procedures', '--total']])
    bad = str(EXAMPLES / 'bad_bool.pcap')
    status, found = answers(tools, bad)
    tools.want('a fault', (status, found['verdicts'][0], 'BadBool' in found['verdicts'][1],
                           found['meaning']),
               (1, sums(refused=1), True, ['0 findings, 0 notes in 0 calls with a reply']))
    tools.write('a.pcap', hung())
    waiting = tools.tool('calls', '--no-reply', 'a.pcap')[1].splitlines()[1:-2]
    status, found = answers(tools, 'a.pcap')
    tools.want('no reply', (status, [line.split()[0] for line in found['no reply'][1:]]),
               (0, [line.split()[3] for line in waiting]))
    tools.want('absent', answers(tools, 'absent')[0], 2)


def all_forms_have_the_counts(tools: Tools) -> None:
    """The page has what is printed, and is green only if something was asked."""
    tools.write('a.pcap', pcap(whole()))
    tools.write('null.nfs3cap', (EXAMPLES / 'null.nfs3cap').read_bytes())
    for name, look in ((FIRST, 'differ'), ('a.pcap', 'part'), ('null.nfs3cap', 'part')):
        status, found = answers(tools, name, '--html', 'x.html')
        page = tree_of((tools.read('x.html') or b'').decode())
        texts = page.all('section')[0].text()
        tools.want(name, (page.all('h1')[0].classes, [
            line for key, lines in found.items() if key != 'next' for line in lines
            if line.strip() not in texts]), ([look], []))
        tools.want(f'status of {name}', f'The status is {status}.' in page.text(), True)
