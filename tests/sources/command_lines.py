"""The command lines of the pages, and those that no test runs, with the reason.

A command line is a line of a block `sh`, or a line that is indented by four spaces and begins as a
command. The lines of a block `console` are run elsewhere: agreement.py compares what they print.
"""
import pathlib
import re

TOP = pathlib.Path(__file__).resolve().parents[2]
BLOCK = re.compile(r'^```sh\n(.*?)^```$', re.M | re.S)
ANY_BLOCK = re.compile(r'^```.*?^```$', re.M | re.S)
INDENTED = re.compile(r'^ {4}((?:\./|tools/|tests/|dev/|python3 |rt |nfs3|tcpdump |for |cd )\S.*)$',
                      re.M)
EXPLAINED = re.compile(r' {3,}.*$')  # what a line does, in words after it
# The pages whose lines another test runs.
RUN_ELSEWHERE = {'docs/CI.md': 'tools/tests/test_ci.py'}
# The beginnings of lines that are not run.
NOT_RUN = {
    'tcpdump ': 'it needs root, and a network with a server',
    './test': 'it runs this test',
    'python3 -m tools.tests': './test runs the tests of the tools'}
# What is large in a line, and what is run in its place.
SMALLER = {'mixed 500 ': 'mixed 1 ', 'small 50 ': 'small 1 ',
           'recordings.py': 'recordings.py --megabytes 1 --runs 1 /tmp/'}


def lines_of(text: str) -> list[str]:
    """The command lines of a page, in order."""
    found = [(block.start(), line) for block in BLOCK.finditer(text)
             for line in block[1].splitlines() if line.strip()]
    found += [(line.start(), EXPLAINED.sub('', line[1]))
              for line in INDENTED.finditer(ANY_BLOCK.sub(blank, text))]
    return [line for _, line in sorted(found, key=lambda place: place[0])]


def blank(block: re.Match[str]) -> str:
    """As many characters as a block has, without a line of it."""
    return ' ' * len(block[0])


def reason(page: str, line: str) -> str | None:
    """Why the line of a page is not run here, or None if it is."""
    if page in RUN_ELSEWHERE:
        return 'it is run by ' + RUN_ELSEWHERE[page]
    return next((why for beginning, why in NOT_RUN.items() if line.startswith(beginning)), None)


def smaller(line: str) -> str:
    for large, small in SMALLER.items():
        line = line.replace(large, small)
    return line


def useless(lines: list[tuple[str, str]]) -> list[str]:
    """What is in the lists above and fits no line of any page, and tests that do not name their
    page."""
    wrong = [beginning for beginning in NOT_RUN
             if not any(line.startswith(beginning) for _, line in lines)]
    wrong += [large for large in SMALLER if not any(large in line for _, line in lines)]
    return wrong + [page for page, test in RUN_ELSEWHERE.items()
                    if page not in (TOP / test).read_text()]
