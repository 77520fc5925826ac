"""How long the sentences, bullets, sections and pages are, which words they avoid, whether their
tables are whole, and whether the files and headings that they name are there. Code, tables and the
targets of links do not count as text."""
import pathlib
import re

TOP = pathlib.Path(__file__).resolve().parents[2]
PAGES = ('README.md', 'CONTRIBUTING.md', 'CHANGELOG.md', 'docs/ARCHITECTURE.md',
         'docs/DECISIONS.md', 'docs/FORMATS.md',
         'docs/PERFORMANCE.md', 'docs/PROOFS.md', 'docs/SECURITY.md', 'examples/README.md',
         'tests/README.md',
         'tools/README.md', 'tools/DESIGN.md', 'tools/tests/README.md')
MOST_WORDS_OF_A_SENTENCE = 40
MOST_WORDS_OF_A_BULLET = 60
MOST_BULLETS = 12  # in a row of bullets under one heading
MOST_WORDS_OF_A_PAGE = {'README.md': 1200, 'docs/ARCHITECTURE.md': 3000}
# Words for which the field has others: a function returns, a value is, a text has.
AVOIDED_IN_DOCSTRINGS = re.compile(r'\b(?:tells|told|stands (?:for|in|at|there))\b', re.I)
AVOIDED = re.compile(AVOIDED_IN_DOCSTRINGS.pattern + r'|\b(?:so is|does so|besides|in another turn|'
                     r'belong together|one more)\b', re.I)
# Pages whose words are not looked at: one is made, and one has notes.
MADE_OR_NOTES = ('dev/measure/NOTES.md',)
# A condition is `if`; `where` is for places.
MOST_WHERES = 8
BULLET = re.compile(r'\s*(?:- |\d+\. )')
HYPHENS = re.compile(r'\|(?: ?:?-+:? ?\|)+')
LINK = re.compile(r'\]\(([^)#\s]*)(?:#([^)]*))?\)')
# A file of the repository, by its path from the top.
PATH = re.compile(
    r'(?<![\w./-])(?:tests|tools|dev|docs|examples|man|completions|crates)/[\w./-]*\w')
STANDS_FOR_ANY = 'NAME'
SENTENCE_ENDS = re.compile(r'(?<=[.:?!])\s+(?=[A-Z*`\[(])')


def plain(text: str) -> str:
    """Returns the text without code, tables and link targets; a code span is one word."""
    text = re.sub(r'```.*?```', '', text, flags=re.S)
    text = re.sub(r'^(?:    |\|).*$', '', text, flags=re.M)
    text = re.sub(r'`[^`]*`', 'X', text)
    return re.sub(r'\]\([^)]*\)', ']', text)


def avoided(text: str, words: re.Pattern[str] = AVOIDED) -> list[str]:
    """Returns the words of a text that it should avoid, outside code and what is quoted."""
    text = re.sub(r'^```.*?^```$', '', text, flags=re.M | re.S)
    text = re.sub(r'^ {4}.*$|`[^`]*`|"[^"]*"|\]\([^)]*\)', '', text, flags=re.M)
    return words.findall(text)


def blocks(text: str) -> list[str]:
    """Returns the paragraphs and bullets, each as one line."""
    found: list[str] = []
    goes_on = False
    for line in plain(text).splitlines():
        if not line.strip() or line.startswith('#'):
            goes_on = False
        elif goes_on and not BULLET.match(line):
            found[-1] += ' ' + line
        else:
            found.append(line)
            goes_on = True
    return found


def faults(text: str) -> list[str]:
    """What of a page is too long, by its first words."""
    wrong: list[str] = []
    for block in blocks(text):
        if BULLET.match(block) and len(block.split()) > MOST_WORDS_OF_A_BULLET:
            wrong.append('a bullet of %d words: %s' % (len(block.split()), block[:60]))
        for sentence in SENTENCE_ENDS.split(block.strip()):
            if len(sentence.split()) > MOST_WORDS_OF_A_SENTENCE:
                wrong.append('a sentence of %d words: %s' % (len(sentence.split()), sentence[:60]))
    for section in re.split(r'^#+ .*$', text, flags=re.M):
        bullets = len(re.findall(r'^- ', section, re.M))
        if bullets > MOST_BULLETS:
            wrong.append('%d bullets under one heading' % bullets)
    wheres = len(re.findall(r'\bwhere\b', plain(text)))
    if wheres > MOST_WHERES:
        wrong.append('`where` %d times' % wheres)
    return wrong


def rows_outside_tables(text: str) -> list[str]:
    """The rows that show as text, and those with more or fewer cells than their table's head. A
    table begins with a head and a line of hyphens, and ends at an empty line."""
    wrong: list[str] = []
    before, cells = '', 0
    lines = re.sub(r'^```.*?^```$', '', text, flags=re.M | re.S).splitlines()
    for line, after in zip(lines, [*lines[1:], '']):
        if line.startswith('|'):
            if not before.startswith('|'):
                cells = cells_of(line) if HYPHENS.fullmatch(after) else 0
            if cells_of(line) != cells:
                wrong.append('a row with %d cells in a table of %d: %s'
                             % (cells_of(line), cells, line[:60]) if cells else
                             'a row outside a table: ' + line[:60])
        before = line
    return wrong


def cells_of(row: str) -> int:
    """A bar after a backslash is part of its cell."""
    return len(re.findall(r'(?<!\\)\|', row)) - 1


def anchors_of(text: str) -> set[str]:
    """The names by which links find the headings of a page. A line of code is no heading."""
    text = re.sub(r'^```.*?^```$', '', text, flags=re.M | re.S)
    return {re.sub(r'[^\w -]', '', head.strip().lower()).replace(' ', '-')
            for head in re.findall(r'^#+ (.*)$', text, re.M)}


def not_there(text: str, folder: pathlib.Path) -> list[str]:
    """The links of a page in a folder that lead nowhere, and the paths of files that do not exist.
    A path is from the top or from the folder, and may lack its ending."""
    wrong: list[str] = []
    for place, anchor in LINK.findall(text):
        target = folder / place
        if not place.startswith('http') and not (target.exists() if place
                                                 else anchor in anchors_of(text)):
            wrong.append('no link: %s#%s' % (place, anchor))
        elif place.endswith('.md') and anchor and anchor not in anchors_of(target.read_text()):
            wrong.append('no heading: %s#%s' % (place, anchor))
    return wrong + ['no file: ' + path for path in PATH.findall(text) if STANDS_FOR_ANY not in path
                    and not any((place / path).exists() or list(place.glob(path + '.*'))
                                for place in (TOP, folder))]


def all_pages() -> list[pathlib.Path]:
    folders = ('', 'docs', 'docs/schemas', 'crates/*', 'examples', 'dev/measure', 'tests', 'tools',
               'tools/tests')
    return [path for folder in folders
            for path in sorted(TOP.glob(folder + '/*.md' if folder else '*.md'))]


def broken_tables() -> list[str]:
    """The rows outside tables on all pages of the repository."""
    return ['%s: %s' % (path.relative_to(TOP), fault) for path in all_pages()
            for fault in rows_outside_tables(path.read_text())]


def dead_names() -> list[str]:
    """The links and paths on all pages that lead nowhere."""
    return ['%s: %s' % (path.relative_to(TOP), fault) for path in all_pages()
            for fault in not_there(path.read_text(), path.parent)]


def long_ones() -> list[str]:
    """What is too long on any page."""
    wrong = ['%s: %s' % (page, fault) for page in PAGES
             for fault in faults((TOP / page).read_text())]
    words = {page: len((TOP / page).read_text().split()) for page in MOST_WORDS_OF_A_PAGE}
    return wrong + ['%s: %d words' % (page, count) for page, count in words.items()
                    if count > MOST_WORDS_OF_A_PAGE[page]]


def words_to_avoid() -> list[str]:
    """The words to avoid on all pages but those that a script makes, and notes."""
    names = {str(path.relative_to(TOP)): path for path in all_pages()}
    found = {page: avoided(path.read_text()) for page, path in names.items()
             if page not in MADE_OR_NOTES}
    return ['%s: %s' % (page, ', '.join(words)) for page, words in found.items() if words]
