#!/usr/bin/env python3
"""Holds docs/page-twelve.html, the page for print, to the front of docs/PAGE-TWELVE.md; with --write it is written anew.

The page has what stands before the heading 'The words', with the picture in it: one sheet of A4.
"""
import html
import pathlib
import re
import sys

ROOT = pathlib.Path(__file__).parent.parent
SOURCE = ROOT / 'docs/PAGE-TWELVE.md'
PAGE = ROOT / 'docs/page-twelve.html'
# the first heading that is not on the page
FIRST_LEFT_OUT = '## The words'

STYLE = '''@page { size: A4; margin: 13mm 15mm }
body { font: 10.5pt/1.4 "Liberation Serif", Georgia, "Times New Roman", serif; color: #16202c; max-width: 180mm; margin: 0 auto; padding: 0 12px }
h1 { font-size: 19pt; margin: 0 0 8pt }
h2 { font-size: 13pt; margin: 13pt 0 4pt }
p { margin: 0 0 6pt }
table { border-collapse: collapse; width: 100%; font-size: 9.5pt }
th, td { text-align: left; vertical-align: top; padding: 2.5pt 6pt 2.5pt 0; border-bottom: 0.5pt solid #b9c2cd }
svg { width: 100%; height: auto; margin: 4pt 0 }
code { font: 9pt "Liberation Mono", Consolas, monospace }
footer { color: #4d5a69; font-size: 8.5pt; margin-top: 8pt }'''


def words(text):
    """Markdown's bold, italics and code as HTML; footnotes are left out, links keep their words."""
    text = re.sub(r'\[\^[^\]]+\]', '', text)
    text = re.sub(r'\[([^\]]+)\](?:\([^)]*\))?', r'\1', text)
    text = html.escape(text, quote=False)
    text = re.sub(r'\*\*([^*]+)\*\*', r'<strong>\1</strong>', text)
    text = re.sub(r'\*([^*]+)\*', r'<em>\1</em>', text)
    return re.sub(r'`([^`]+)`', r'<code>\1</code>', text)


def table(lines):
    """A table of Markdown."""
    rows = [[words(cell.strip()) for cell in line.strip('|').split('|')] for line in lines if not line.startswith('|---')]
    cells = [''.join(f'<{kind}>{cell}</{kind}>' for cell in row) for row, kind in zip(rows, ['th'] + ['td'] * len(rows))]
    return '<table>\n' + ''.join(f'<tr>{row}</tr>\n' for row in cells) + '</table>'


def block(text):
    """A heading, a table, a picture or a paragraph."""
    if heading := re.fullmatch(r'(#+) (.*)', text):
        level = len(heading[1])
        return f'<h{level}>{words(heading[2])}</h{level}>'
    if text.startswith('|'):
        return table(text.split('\n'))
    if picture := re.fullmatch(r'!\[.*\]\((.*)\)', text):
        return (SOURCE.parent / picture[1]).read_text().strip()
    return f'<p>{words(text)}</p>'


def page():
    front, left_out, _ = SOURCE.read_text().partition(FIRST_LEFT_OUT)
    if not left_out:
        sys.exit(f'{SOURCE.relative_to(ROOT)} has no heading {FIRST_LEFT_OUT!r}')
    blocks = [block(text) for text in front.strip().split('\n\n')]
    title = re.match(r'# (.*)', front)[1]
    return '\n'.join(['<!DOCTYPE html>', '<html lang="en">', '<head>', '<meta charset="utf-8">',
                      '<meta name="viewport" content="width=device-width, initial-scale=1">', f'<title>{html.escape(title)}</title>',
                      f'<style>\n{STYLE}\n</style>', '</head>', '<body>', *blocks,
                      '<footer>Sentence by sentence, with what each rests on: docs/PAGE-TWELVE.md.</footer>', '</body>', '</html>', ''])


def main():
    if '--write' in sys.argv:
        PAGE.write_text(page())
        return 0
    if not PAGE.exists() or PAGE.read_text() != page():
        print(f'{PAGE.relative_to(ROOT)} is not what tests/page_twelve.py --write writes')
        return 1
    return 0


sys.exit(main())
