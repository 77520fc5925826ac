"""Pages of the tools as trees of elements, and in headless Chromium: what they show, and what their
keys and buttons do.

Chromium speaks the DevTools protocol over two pipes, objects in JSON with a zero byte after each.
"""
import fcntl
import json
import os
import re
import select
import shutil
import subprocess
import sys
import time
import unittest
from collections.abc import Callable, Iterator
from html.parser import HTMLParser
from pathlib import Path
from typing import Any, TypeVar

from tests.shared.running import Runs

from .scripts import Tools

WORDS = ('--headless', '--no-sandbox', '--disable-gpu', '--disable-dev-shm-usage', '--no-first-run',
         '--disable-extensions', '--hide-scrollbars', '--remote-debugging-pipe')
# Gives the pipes the numbers under which Chromium reads and writes, and runs it.
STARTED = """import os, sys
os.dup2(int(sys.argv[1]), 3)
os.dup2(int(sys.argv[2]), 4)
os.execv(sys.argv[3], sys.argv[3:])
"""
SECONDS = 60.0  # that an answer may take
HEIGHT = 900


def chromium() -> str | None:
    return shutil.which('chromium')


def above_standard(number: int) -> int:
    """Returns another number of an open file, which Chromium neither reads nor writes."""
    other = fcntl.fcntl(number, fcntl.F_DUPFD_CLOEXEC, 10)
    os.close(number)
    return other


class Browser:
    """A running Chromium with one page. The folder is for its files."""

    def __init__(self, folder: str) -> None:
        self.errors: list[str] = []  # what the console says
        self.number, self.session, self.is_loaded, self.rest = 0, '', False, b''
        theirs, self.out = map(above_standard, os.pipe())
        self.into, others = map(above_standard, os.pipe())
        path = chromium()
        assert path
        self.process = subprocess.Popen(
            [sys.executable, '-c', STARTED, str(theirs), str(others), path, *WORDS,
             f'--user-data-dir={folder}', 'about:blank'],
            stdin=subprocess.DEVNULL, stdout=subprocess.DEVNULL, stderr=subprocess.DEVNULL,
            pass_fds=(theirs, others), env={**os.environ, 'HOME': folder})
        os.close(theirs)
        os.close(others)
        target = self.ask('Target.createTarget', url='about:blank')['targetId']
        self.session = self.ask('Target.attachToTarget', targetId=target, flatten=True)['sessionId']
        for domain in ('Page', 'Runtime', 'Log'):
            self.ask(f'{domain}.enable')

    def __enter__(self) -> 'Browser':
        return self

    def __exit__(self, *_: object) -> None:
        os.close(self.out)
        try:
            self.process.wait(10)
        except subprocess.TimeoutExpired:
            self.process.kill()
            self.process.wait()
        os.close(self.into)

    def ask(self, method: str, **words: Any) -> Any:
        """Returns the result of a command.

        Raises `RuntimeError` if it fails.
        """
        self.number += 1
        message = {'id': self.number, 'method': method, 'params': words}
        if self.session:
            message['sessionId'] = self.session
        os.write(self.out, json.dumps(message).encode() + b'\0')
        for answer in self.answers():
            if answer.get('id') == self.number:
                if 'error' in answer:
                    raise RuntimeError(f'{method}: {answer["error"]}')
                return answer['result']
        raise RuntimeError(f'{method}: no answer')

    def answers(self) -> Iterator[dict[str, Any]]:
        """Iterates over what Chromium says, and notes events."""
        end = time.monotonic() + SECONDS
        while time.monotonic() < end:
            text, is_whole, rest = self.rest.partition(b'\0')
            if is_whole:
                self.rest = rest
                answer: dict[str, Any] = json.loads(text)
                self.note(answer)
                yield answer
            elif select.select([self.into], [], [], SECONDS)[0]:
                piece = os.read(self.into, 1 << 16)
                if not piece:
                    return
                self.rest += piece

    def note(self, answer: dict[str, Any]) -> None:
        """Notes that a page is loaded, and what is wrong with it."""
        method, words = answer.get('method'), answer.get('params', {})
        self.is_loaded |= method == 'Page.loadEventFired'
        if method == 'Runtime.exceptionThrown':
            self.errors.append(
                str(words['exceptionDetails'].get('exception', words['exceptionDetails'])))
        if method == 'Log.entryAdded' and words['entry']['level'] == 'error':
            self.errors.append(words['entry']['text'])
        if method == 'Runtime.consoleAPICalled' and words['type'] == 'error':
            self.errors.append(str(words['args']))

    # --- Pages ---

    def open(self, path: str, width: int = 1300, is_dark: bool = False,
             has_scripts: bool = True) -> None:
        """Opens a file, in a window of so many columns of pixels."""
        self.resize(width)
        scheme = {'name': 'prefers-color-scheme', 'value': 'dark' if is_dark else 'light'}
        self.ask('Emulation.setEmulatedMedia', features=[scheme])
        self.ask('Emulation.setScriptExecutionDisabled', value=not has_scripts)
        self.is_loaded = False
        self.ask('Page.navigate', url=Path(path).resolve().as_uri())
        for _ in () if self.is_loaded else self.answers():
            if self.is_loaded:
                break

    def resize(self, width: int) -> None:
        """Gives the window so many columns of pixels."""
        self.ask('Emulation.setDeviceMetricsOverride', width=width, height=HEIGHT,
                 deviceScaleFactor=1, mobile=False)

    def value(self, expression: str) -> Any:
        result = self.ask('Runtime.evaluate', expression=expression, returnByValue=True,
                          awaitPromise=True, userGesture=True)
        if 'exceptionDetails' in result:
            raise RuntimeError(f'{expression}: {result["exceptionDetails"]}')
        return result['result'].get('value')

    def is_shown(self, selector: str) -> bool:
        """Whether the first element of a selector has a box, also without scripts."""
        root = self.ask('DOM.getDocument')['root']['nodeId']
        node = self.ask('DOM.querySelector', nodeId=root, selector=selector)['nodeId']
        try:
            return bool(self.ask('DOM.getBoxModel', nodeId=node)['model']['height'])
        except RuntimeError:
            return False

    def press(self, key: str) -> None:
        """Presses a key, which is a letter or the name of one."""
        text = {'text': key} if len(key) == 1 else {}
        self.ask('Input.dispatchKeyEvent', type='keyDown', key=key, **text)
        self.ask('Input.dispatchKeyEvent', type='keyUp', key=key)

    def click(self, selector: str) -> None:
        """Clicks into the middle of the first line of the first element of a selector."""
        x, y = self.value(f'(() => {{ const one = document.querySelector({json.dumps(selector)}); '
                          f'one.scrollIntoView({{block: "center"}});'
                          'const box = one.getClientRects()[0]; return [box.x + box.width / 2, '
                          'box.y + box.height / 2] })()')
        for kind in ('mousePressed', 'mouseReleased'):
            self.ask('Input.dispatchMouseEvent', type=kind, x=x, y=y, button='left', clickCount=1)


VOID = ('meta', 'input')
OUTSIDE = {'img', 'link', 'iframe', 'object', 'embed', 'base', 'form'}  # elements that load or send
ASKING = {'src', 'srcset', 'data', 'action', 'onclick'}  # attributes that do, or run something
HOSTILE = '<script>document.title=1</script>&"\'<img src=x onerror="document.title=2">'

WIDTHS = (480, 1300)
WIDE = '[document.documentElement.scrollWidth <= document.documentElement.clientWidth, innerWidth]'
SHOWN = '[...document.querySelectorAll("%s")].filter(one => one.checkVisibility())'
VISIBLE = SHOWN + '.map(one => one.id)'
HERE = '[...document.querySelectorAll("article.here")].map(one => one.id)'
OPEN_ALL = 'document.querySelectorAll("details").forEach(one => one.open = true)'

Test = TypeVar('Test', bound=Callable[..., object])


def in_chromium(test: Test) -> Test:
    """Skips a test, with a word, if Chromium is not installed."""
    return unittest.skipUnless(chromium(), 'chromium is not there')(test)


class Node:
    """An element of a page: its attributes, and its texts and elements in their order."""

    def __init__(self, tag: str, attributes: dict[str, str]) -> None:
        self.tag, self.attributes = tag, attributes
        self.parts: list['str | Node'] = []

    @property
    def classes(self) -> list[str]:
        return self.attributes.get('class', '').split()

    def nodes(self) -> Iterator['Node']:
        for part in self.parts:
            if isinstance(part, Node):
                yield part
                yield from part.nodes()

    def all(self, tag: str, name: str = '') -> list['Node']:
        """The elements in this one of a tag, and of a class if one is named."""
        return [node for node in self.nodes()
                if node.tag == tag and (not name or name in node.classes)]

    def texts(self, tag: str, name: str = '') -> list[str]:
        return [node.text().strip() for node in self.all(tag, name)]

    def text(self) -> str:
        """The text in this element, with single spaces. Styles and scripts are none."""
        parts = (part if isinstance(part, str)
                 else '' if part.tag in ('style', 'script') else part.text()
                 for part in self.parts)
        return re.sub(r'\s+', ' ', ''.join(parts))


class Tree(HTMLParser):
    """Reads a page, each of whose elements has to be closed but for the void ones."""

    def __init__(self) -> None:
        super().__init__()
        self.open = [Node('', {})]

    def handle_starttag(self, tag: str, attrs: list[tuple[str, str | None]]) -> None:
        node = Node(tag, {name: value or '' for name, value in attrs})
        self.open[-1].parts.append(node)
        if tag not in VOID:
            self.open.append(node)

    def handle_endtag(self, tag: str) -> None:
        if self.open[-1].tag != tag:
            raise ValueError(f'</{tag}> ends <{self.open[-1].tag}>')
        self.open.pop()

    def handle_data(self, data: str) -> None:
        self.open[-1].parts.append(data)


def tree_of(text: str) -> Node:
    tree = Tree()
    tree.feed(text)
    tree.close()
    if len(tree.open) != 1:
        raise ValueError(f'<{tree.open[-1].tag}> is not closed')
    return tree.open[0]


def table_of(node: Node) -> list[list[str]]:
    return [[cell.text().strip() for cell in row.nodes() if cell.tag in ('td', 'th')]
            for row in node.all('tr')]


def broken_links(page: Node) -> list[str]:
    names = {'#' + node.attributes['id'] for node in page.nodes() if 'id' in node.attributes}
    return [one.attributes['href'] for one in page.all('a') if one.attributes['href'] not in names]


def asked_of_others(page: Node) -> list[str]:
    """What a page loads, sends or runs, but for its own script, and links that lead elsewhere."""
    nodes = list(page.nodes())
    return [*(node.tag for node in nodes if node.tag in OUTSIDE or ASKING & {*node.attributes}),
            *(node.tag for node in page.all('script')[1:]),
            *(href for node in nodes if not (href := node.attributes.get('href', '#'))[0] == '#')]


class Pages(Runs):
    """Runs of tools that write the page `page.html`."""

    def written(self) -> Node:
        return tree_of((self.read('page.html') or b'').decode())

    def browser(self) -> Browser:
        os.makedirs(self.path('chromium'), exist_ok=True)
        return Browser(self.path('chromium'))

    def loads(self, browser: Browser, what: str) -> None:
        """The page loads without an error, and nothing is wider than the window, open or not."""
        for width in WIDTHS:
            browser.open(self.path('page.html'), width, is_dark=width == WIDTHS[0])
            for how, change in (('closed', '0'), ('open', OPEN_ALL)):
                browser.value(change)
                self.want(f'{what}, {width}, all {how}', browser.value(WIDE), [True, width])
        self.want(f'{what}: errors', browser.errors, [])


class Written(Tools, Pages):
    """Runs of tools that write a page."""

    def page(self, tool: str, *words: str) -> tuple[int, str, Node]:
        """The status, what was printed, and the page."""
        status, out, _ = self.tool(tool, '--html', 'page.html', *words)
        return status, out, self.written()


def light_of(colour: str) -> float:
    """The relative luminance of `rgb(1, 2, 3)`, from 0 to 1."""
    red, green, blue = ((int(value) / 255) ** 2.2 for value in re.findall(r'\d+', colour)[:3])
    return 0.2126 * red + 0.7152 * green + 0.0722 * blue


def find(browser: Browser, text: str) -> None:
    """Puts a text into the field that searches."""
    browser.value(f'find.value = {text!r}, find.dispatchEvent(new Event("input"))')
