#!/usr/bin/env python3
"""Holds the documents to what there is.

- Every file that the tables and footnotes of DOCUMENTS cite exists, and has the names that stand behind it.
- docs/PROMISES.md has a row for every numbered sentence of docs/REQUIREMENTS.md, in its words. A request (F) that has a row has one
  for each of its sentences; one that has none has not landed.
- A requirement or a decision has a number of its own, and is cited by it, as a link; nothing is called by the name of a paper that is not here.
- Every link within the repository leads to a file, and to a heading of it where it names one. Every number in brackets is one that there is,
  and every footnote is used and is there.

With --write the links at the end of each document, and the sentences of docs/PROMISES.md, are written anew.
"""
import os
import pathlib
import re
import sys

ROOT = pathlib.Path(__file__).parent.parent
CRATES = ROOT / 'crates'
PROMISES = 'docs/PROMISES.md'
REQUIREMENTS = 'docs/REQUIREMENTS.md'
DECISIONS = 'docs/DECISIONS.md'
# the documents whose tables and footnotes cite files and names, and how many rows and footnotes each has at least
DOCUMENTS = {PROMISES: 100, 'docs/PAGE-TWELVE.md': 30, 'docs/NEIGHBOURS.md': 12, 'docs/SEARCH.md': 12}
NUMBER = r'(?:[BCDFGHKPRSTX]-\d+(?:\.\d+)?|E\d+)'
ITEM = re.compile(rf'(?:- |\| )\*\*({NUMBER})\*\*(?: \|)? (.*?)(?: \|)?')
HEADING = re.compile(rf'#+ (({NUMBER})\. .*)')
PAPERS = re.compile(r'\b[Dd]ocuments? 0?0?[0-9]|\b[Dd]emands? [0-9]')
LINKS = '<!-- links, written by tests/promises.py --write -->'


def texts():
    """The other files of the repository that a person reads."""
    crates = [f'crates/{path.name}/{part}' for path in sorted(CRATES.iterdir()) for part in ('src', 'specs', 'proofs', 'must-fail')]
    for folder in (*crates, 'host/src', 'host/tests', 'host/c', 'include', 'tests', 'examples'):
        for path in sorted((ROOT / folder).rglob('*')):
            if path.suffix in ('.rt', '.antt', '.rs', '.c', '.h', '.py', '.edit', '.csv', '.desk') and path.name != 'promises.py':
                yield path


def documents():
    """The Markdown files of the repository."""
    found = [path for folder in ('', 'docs', 'examples', 'host') for path in (ROOT / folder).glob('*.md')]
    return sorted(str(path.relative_to(ROOT)) for path in found)


def slug(heading):
    """A heading's anchor."""
    return re.sub(r'[^\w\- ]', '', heading.lower()).replace(' ', '-')


def numbers_of(document):
    """The numbered sentences of a document, and for each number, a heading's too, where it stands."""
    sentences, places, anchor = {}, {}, ''
    for line in (ROOT / document).read_text().split('\n'):
        if line.startswith('#'):
            anchor = slug(line.lstrip('# '))
        heading, item = HEADING.fullmatch(line), ITEM.fullmatch(line)
        if heading:
            places[heading.group(2)] = f'{document}#{anchor}'
        elif item:
            sentences[item.group(1)] = item.group(2)
            places[item.group(1)] = f'{document}#{anchor}'
    return sentences, places


def twice_in(document):
    """The numbers that a document gives more than once."""
    lines = (ROOT / document).read_text().split('\n')
    numbers = [match.group(2) for match in map(HEADING.fullmatch, lines) if match]
    numbers += [match.group(1) for match in map(ITEM.fullmatch, lines) if match]
    return sorted(number for number in set(numbers) if numbers.count(number) > 1)


def tokens(path):
    return set(re.findall(r"[\w'-]+", path.read_text()))


def file_of(cited):
    """The file that a citation names, or None where it is a name."""
    for path in [CRATES / cited, ROOT / cited]:
        if path.exists():
            return path
    crate, _, edit = cited.partition('/')
    path = CRATES / crate / 'must-fail' / (edit + '.edit')
    return path if edit and path.exists() else None


def citations(cell, everywhere):
    """The citations of a cell, and whether each leads somewhere. A name behind a file, up to the next semicolon, is in that file."""
    here = None
    for cited, semicolon in re.findall(r'`([^`]+)`|(;)', cell):
        if semicolon:
            here = None
        elif file_of(cited):
            path = file_of(cited)
            here = tokens(path) if path.suffix in ('.antt', '.rt') else None
            yield cited, True
        elif re.fullmatch(r"[\w'./-]+", cited):
            yield cited, '/' not in cited and cited in (here or everywhere)


def body_of(document):
    """A document without the links at its end."""
    return (ROOT / document).read_text().split(LINKS)[0].rstrip('\n').split('\n')


def is_row(lines, at):
    """Whether this line is a row of a table and not its head."""
    return lines[at].startswith('| ') and not ''.join(lines[at + 1:at + 2]).startswith('|---')


def is_note(line):
    """Whether this line is a footnote."""
    return line.startswith('[^')


def rows_of(document):
    """The rows of its tables and its footnotes."""
    lines = body_of(document)
    return [line for at, line in enumerate(lines) if is_row(lines, at) or is_note(line)]


def citing(row):
    """The row's front, and the part that cites: the last cell, or a footnote's text."""
    front, bar, cell = row.partition(']: ') if is_note(row) else row.rpartition(' | ')
    return front + bar, cell


def cited_by(row):
    """The numbers in a row's first cell; 'S-2 to S-6' are five."""
    cell = row.split(' |')[0]
    found = []
    for first, last in re.findall(rf'\[({NUMBER})\](?: to \[({NUMBER})\])?', cell):
        found.append(first)
        letters, low = re.fullmatch(r'(.*?)(\d+)', first).groups()
        if last:
            found += [f'{letters}{k}' for k in range(int(low) + 1, int(re.search(r'\d+$', last).group()) + 1)]
    return found


def numbers_linked(text, places):
    """The text with each number that is none yet made a link. What stands in backticks, and a link's own words, stay."""
    parts = re.split(r'(`[^`]*`|\[[^\]]*\](?:\([^)]*\))?)', text)
    for at in range(0, len(parts), 2):
        parts[at] = re.sub(rf'(?<![\w.-]){NUMBER}(?![\w-]|\.\d)', lambda m: f'[{m[0]}]' if m[0] in places else m[0], parts[at])
    return ''.join(parts)


def files_linked(row):
    """The row with each file that it cites made a link."""
    front, cell = citing(row)
    return front + re.sub(r'(?<!\[)`([^`]+)`(?!\])', lambda m: f'[{m[0]}]' if '/' in m[1] and file_of(m[1]) else m[0], cell)


def written(document, sentences, places):
    """The document as it should be: promises in the requirements' words, numbers and cited files as links, the links at its end."""
    lines = body_of(document)
    for at, line in enumerate(lines):
        if document == PROMISES and is_row(lines, at):
            first, carried = line.split(' |')[0], line.rpartition('| ')[2]
            line = f"{first} | {' '.join(sentences.get(number, '') for number in cited_by(line))} | {carried}"
        if document in DOCUMENTS and (is_row(lines, at) or is_note(line)):
            line = files_linked(line)
        if document not in (REQUIREMENTS, DECISIONS) or document == DECISIONS and not line.startswith('#'):
            lines[at] = line if line.startswith('    ') else numbers_linked(line, places)
    folder = (ROOT / document).parent
    text = '\n'.join(lines)
    plain = '\n'.join(line for line in lines if not line.startswith('    '))
    links = {f'[{number}]': ROOT / places[number] for number in re.findall(rf'\[({NUMBER})\](?!\()', plain) if number in places}
    links |= {f'[`{cited}`]': file_of(cited) for cited in re.findall(r'\[`([^`]+)`\](?!\()', plain) if file_of(cited)}
    if not links:
        return text + '\n'
    return text + f'\n\n{LINKS}\n\n' + ''.join(f'{name}: {os.path.relpath(path, folder)}\n' for name, path in links.items())


def headings_of(path):
    """The anchors of a document's headings: the second of two alike ends with -1, the third with -2."""
    slugs = [slug(line.lstrip('# ')) for line in path.read_text().split('\n') if line.startswith('#')]
    return [f'{one}-{slugs[:at].count(one)}' if one in slugs[:at] else one for at, one in enumerate(slugs)]


def broken_links(document, text):
    """The links of a document that lead nowhere within the repository."""
    for target in re.findall(r'(?:\]\(|^\[(?!\^)[^\]]+\]: )([^)\s]+)', text, re.MULTILINE):
        name, _, anchor = target.partition('#')
        path = (ROOT / document).parent / name if name else ROOT / document
        if '://' not in target and not (path.exists() and (not anchor or anchor in headings_of(path))):
            yield target


def missing_ends(text, places):
    """The numbers in brackets that there are not, and the footnotes that are not both used and there."""
    plain = '\n'.join(line for line in text.split('\n') if not line.startswith('    '))
    yield from (f'[{number}]' for number in set(re.findall(rf'\[({NUMBER})\]', plain)) - set(places))
    notes = set(re.findall(r'^\[\^([^\]]+)\]:', plain, re.MULTILINE))
    yield from (f'[^{note}]' for note in notes ^ set(re.findall(r'\[\^([^\]]+)\](?!:)', plain)))


def main():
    sentences, places = numbers_of(REQUIREMENTS)
    places |= numbers_of(DECISIONS)[1]
    wrong = [f'{document}: {number} stands twice' for document in (REQUIREMENTS, DECISIONS) for number in twice_in(document)]
    for document in documents():
        if document == REQUIREMENTS:
            continue
        text = written(document, sentences, places)
        if '--write' in sys.argv:
            (ROOT / document).write_text(text)
        elif text != (ROOT / document).read_text():
            wrong.append(f'{document}: its links or sentences are not those that tests/promises.py --write writes')
        for target in broken_links(document, text):
            wrong.append(f'{document}: its link to {target} leads nowhere')
        for end in sorted(missing_ends(text, places)):
            wrong.append(f'{document}: {end} leads nowhere, or nothing leads there')
        for paper in PAPERS.findall(text):
            wrong.append(f'{document}: says {paper!r}; cite the number of {REQUIREMENTS}')
    for path in texts():
        for paper in PAPERS.findall(path.read_text()):
            wrong.append(f'{path.relative_to(ROOT)}: says {paper!r}; cite the number of {REQUIREMENTS}')

    everywhere = {crate.name for crate in CRATES.iterdir()} | {edit.stem for edit in CRATES.glob('*/must-fail/*.edit')}
    for kind in ('antt', 'rt'):
        for path in [path for part in ('src', 'specs', 'proofs') for path in CRATES.glob(f'*/{part}/**/*.{kind}')]:
            everywhere |= tokens(path)
    looked_up = 0
    for document, least in DOCUMENTS.items():
        rows = rows_of(document)
        for row in rows:
            for name, there in citations(citing(row)[1], everywhere):
                looked_up += 1
                if not there:
                    wrong.append(f'{document}: {name}: not where this row says: {row[:90]}')
        if len(rows) < least:
            wrong.append(f'{document}: {len(rows)} rows, and there were {least} or more')

    promised = [number for row in rows_of(PROMISES) for number in cited_by(row)]
    for number in promised:
        if number not in sentences:
            wrong.append(f'{PROMISES}: {number} is no sentence of {REQUIREMENTS}')
    landed = {number.split('.')[0] for number in promised}
    owed = [number for number in sentences if not number.startswith('F') or number.split('.')[0] in landed]
    for number in owed:
        if number not in promised:
            wrong.append(f'{PROMISES}: no row for {number}, {sentences[number][:60]}')

    print('\n'.join(wrong + [f'{looked_up} citations looked up in {len(DOCUMENTS)} documents, {len(owed)} numbered sentences, '
                             f'{len(sentences) - len(owed)} of requests to come']))
    return 1 if wrong else 0


sys.exit(main())
