#!/usr/bin/env python3
"""Looks at the pictures and pages of plans: those of the examples and of lists that are hard to draw.

What needs no browser is computed: well-formed markup; every element in the view box and every label in its bar, by the widths of the
widest usual letters; no text on another; contrasts, which are the same in grey; late in words and hatched; on a narrow screen nothing
wider than it; on paper the table with its sentences on one sheet; on the wall what must be seen without scrolling. Where node is
installed the wall's script is held to 'depot plan --now'.

Where a browser is installed (chromium or google-chrome), it measures the same: wide, narrow, on paper and as a wall when most buses are on
charge, and leaves screenshots, light and dark, and PDFs in target/pictures/ for eyes. Where none is, that is said: then nothing was measured.

Needs the built command line: cargo build --release in host/.
"""
import contextlib
import datetime
import html.parser
import json
import math
import os
import pathlib
import re
import shutil
import subprocess
import sys
import xml.dom.minidom

import devtools

ROOT = pathlib.Path(__file__).parent.parent
DEPOT = ROOT / 'host/target/release/depot'
SEEN = ROOT / 'target/pictures'

HEADER = 'cabinet,64\nlabel,modules,minutes,after,departure\n'
# lists that are hard to draw: long labels, short and thin bars, late jobs, no jobs, the longest plan, many arrivals, long rests
ODD = {
    'none': HEADER,
    'longest': HEADER + 'WWWWWWWWWWWWWWWW,64,1440,,2880\n' * 20,
    'tiny': HEADER + ''.join(f'{"LABEL NUMBER " if i % 2 else "T"}{i},{1 + i % 3},{1 + i},,{i}\n' for i in range(19)) + 'LONG,20,900,,700\n',
    'markup': HEADER + '"<b>&""\'x\'",60,30,,10\n</svg>,9,20,,90\n',
    'fleet': HEADER + ''.join(f'N  {400 + i} B,{1 + 3 * i % 30},{20 + 31 * i % 200},"N  {399 + i} B",{9 * i}\n' for i in range(1, 12)).replace('"N  400 B"', ''),
    'thin': HEADER + ''.join(f'J{i},3,{60 + 7 * i},,{100 + i}\n' for i in range(20)),
    'road': HEADER.replace('departure', 'departure,arrival') + ''.join(f'BUS NUMBER {i},9,{60 + 7 * i},,{300 + i},{9 * i}\n' for i in range(20)),
    'rest': 'changeover,30\n' + HEADER.replace('64', '24') + ''.join(f'J{i},{3 + i % 3},{10 + 7 * i},,{100 + 9 * i}\n' for i in range(12)),
    'rest-road': 'changeover,7\n' + HEADER.replace('64', '12').replace('departure', 'departure,arrival') + ''.join(
        f'N {i} BUS,{2 + i % 3},{15 + 6 * i},,{90 + 12 * i},{5 * i}\n' for i in range(14)),
    'rest-longest': 'changeover,30\n' + HEADER + 'WWWWWWWWWWWWWWWW,64,1440,,2880\n' * 20,
}
HEADING = ['--depot', 'Betriebshof Süd & <Nord>', '--date', '2026-12-31']
# nights on a desk: an evening beside a greedy neighbour, and one beside a script
NIGHTS = [(ROOT / 'examples/on-the-road.csv', *HEADING), (ROOT / 'examples/small-depot.csv', '--script', ROOT / 'examples/workshop-night.desk')]

# thousandths of the size that letters 32 to 126 are wide: of Arial and DejaVu Sans the wider
PLAIN = [318, 401, 460, 838, 636, 950, 780, 275, 390, 390, 500, 838, 318, 361, 318, 337, 636, 636, 636, 636, 636, 636, 636, 636, 636, 636, 337, 337, 838,
         838, 838, 556, 1015, 684, 686, 722, 770, 667, 611, 778, 752, 295, 500, 667, 557, 863, 748, 787, 667, 787, 722, 667, 611, 732, 684, 989, 685, 667,
         685, 390, 337, 390, 838, 556, 500, 613, 635, 550, 635, 615, 352, 635, 634, 278, 278, 579, 278, 974, 634, 612, 635, 635, 411, 521, 392, 634, 592,
         818, 592, 592, 525, 636, 337, 636, 838]
BOLD = [348, 456, 521, 838, 696, 1002, 872, 306, 457, 457, 523, 838, 380, 415, 380, 365, 696, 696, 696, 696, 696, 696, 696, 696, 696, 696, 400, 400, 838,
        838, 838, 611, 1000, 774, 762, 734, 830, 683, 683, 821, 837, 372, 556, 775, 637, 995, 837, 850, 733, 850, 770, 720, 682, 812, 774, 1103, 771, 724,
        725, 457, 365, 457, 838, 556, 500, 675, 716, 593, 716, 678, 435, 716, 712, 343, 343, 665, 343, 1042, 712, 687, 716, 716, 493, 595, 478, 712, 652,
        924, 652, 652, 582, 712, 365, 712, 838]


APART = 3   # the least room between two words of a line, in pixels


def width(text, size, bold=False):
    """How wide a text is in the widest usual letters."""
    table = BOLD if bold else PLAIN
    return size / 1000 * sum(table[ord(c) - 32] if 32 <= ord(c) < 127 else 318 if c == '\xa0' else 700 for c in text)


# ---- pictures

def rules_of(css):
    """Size and weight of the letters of each class, from the rules of a picture."""
    rules = {}
    for name, body in re.findall(r'\.chart (text|\.[a-z-]+)\{([^}]*)\}', css):
        size = re.search(r'font-size:([\d.]+)px', body)
        known = rules.setdefault(name.lstrip('.'), {})
        if size:
            known['size'] = float(size.group(1))
        if 'font-weight:bold' in body:
            known['bold'] = True
    return rules


def letters(text, rules):
    """Size and weight of a text's letters."""
    size, bold = rules['text']['size'], False
    for name in text.getAttribute('class').split():
        size = rules.get(name, {}).get('size', size)
        bold = rules.get(name, {}).get('bold', bold)
    smaller = re.search(r'font-size:([\d.]+)px', text.getAttribute('style'))
    return (float(smaller.group(1)) if smaller else size), bold


def said(element):
    return ''.join(node.data for node in element.childNodes if node.nodeType == node.TEXT_NODE)


def extent(text, rules):
    """Left, top, right and bottom of a text."""
    size, bold = letters(text, rules)
    wide = width(said(text), size, bold)
    left = {'end': -wide, 'middle': -wide / 2}.get(text.getAttribute('text-anchor'), 0)
    corners = [(x, y) for x in (left, left + wide) for y in (-0.76 * size, 0.22 * size)]
    turned = re.match(r'translate\(([-\d.]+) ([-\d.]+)\) rotate\(([-\d.]+)\)', text.getAttribute('transform'))
    if turned:
        x0, y0, angle = (float(figure) for figure in turned.groups())
        sine, cosine = math.sin(math.radians(angle)), math.cos(math.radians(angle))
        corners = [(x0 + x * cosine - y * sine, y0 + x * sine + y * cosine) for x, y in corners]
    else:
        x0, y0 = float(text.getAttribute('x')), float(text.getAttribute('y'))
        corners = [(x0 + x, y0 + y) for x, y in corners]
    xs, ys = zip(*corners)
    return min(xs), min(ys), max(xs), max(ys)


def box(rect):
    x, y, wide, high = (float(rect.getAttribute(name) or 0) for name in ('x', 'y', 'width', 'height'))
    return x, y, x + wide, y + high


def within(a, b, aside=0.5, above=1.5):
    return a[0] >= b[0] - aside and a[2] <= b[2] + aside and a[1] >= b[1] - above and a[3] <= b[3] + above


def places(element):
    """The points of a line or a path that are written as they are."""
    if element.tagName == 'line':
        return [(float(element.getAttribute(f'x{i}')), float(element.getAttribute(f'y{i}'))) for i in '12']
    return [(float(x), float(y)) for x, y in re.findall(r'[ML]([-\d.]+) ([-\d.]+)', element.getAttribute('d'))]


def of_picture(svg, css):
    """What is wrong with a picture."""
    rules, faults = rules_of(css), []
    view = tuple(float(figure) for figure in svg.getAttribute('viewBox').split())
    drawn = [element for element in svg.getElementsByTagName('*') if element.parentNode.tagName != 'pattern']
    rects = [element for element in drawn if element.tagName == 'rect']
    if any(float(rect.getAttribute(name)) < 0 for rect in rects for name in ('width', 'height')):
        faults.append('a rectangle of less than nothing')
    faults += [f'a rectangle outside: {box(rect)}' for rect in rects if not within(box(rect), view)]
    for element in drawn:
        if element.tagName in ('line', 'path') and not all(within((x, y, x, y), view) for x, y in places(element)):
            faults.append(f'outside: {element.toxml()[:90]}')
    texts = [(text, extent(text, rules)) for text in drawn if text.tagName == 'text']
    faults += [f'outside: {said(text)}' for text, at in texts if not within(at, view)]
    straight = [(said(text), at) for text, at in texts if not text.hasAttribute('transform')]
    for i, (one, a) in enumerate(straight):
        for other, b in straight[:i]:
            if min(a[2], b[2]) - max(a[0], b[0]) > -APART and min(a[3], b[3]) - max(a[1], b[1]) > 3.5:
                faults.append(f'run together: {one} and {other}')
    strong = [element for element in drawn if element.getAttribute('class') == 'end']
    for one, a in straight:
        for (x1, y1), (x2, y2) in (pair for line in strong for pair in zip(places(line), places(line)[1:])):
            if min(a[2], max(x1, x2)) - max(a[0], min(x1, x2)) > -1 and min(a[3], max(y1, y2)) - max(a[1], min(y1, y2)) > -1:
                faults.append(f'a line through {one}')
    key = min((at[0] for name, at in straight if name == 'job'), default=view[2])
    faults += [f'in the key: {said(text)}' for text, at in texts if text.hasAttribute('transform') and at[2] > key]
    bars = [box(rect) for rect in rects if 'bar' in rect.getAttribute('class').split()]
    extents = {id(text): at for text, at in texts}
    for ground in (rect for rect in rects if 'ground' in rect.getAttribute('class').split()):
        text = ground.nextSibling
        while text.nodeType != text.ELEMENT_NODE:
            text = text.nextSibling
        if not any(within(extents[id(text)], bar) for bar in bars):
            faults.append(f'not in its bar: {said(text)}')
    late = [rect for rect in rects if rect.getAttribute('class') == 'bar late']
    hatched = [rect for rect in rects if rect.getAttribute('class') == 'hatched']
    named = [text for text, _ in texts if 'late-word' in text.getAttribute('class')]
    if 'arrival-mark' not in css:
        return faults
    if len(late) != len(hatched) or (len(late) > 1) != bool(named):
        faults.append(f'{len(late)} late bars, {len(hatched)} hatched, {len(named)} words')
    return faults


# ---- colours

def light(colour):
    """How light a colour is, which is all that is left of it in grey."""
    parts = [int(colour[i:i + 2], 16) / 255 for i in (1, 3, 5)]
    red, green, blue = (part / 12.92 if part <= 0.04045 else ((part + 0.055) / 1.055) ** 2.4 for part in parts)
    return 0.2126 * red + 0.7152 * green + 0.0722 * blue


def contrast(one, other):
    low, high = sorted((light(one), light(other)))
    return (high + 0.05) / (low + 0.05)


def of_colours(css):
    """What is wrong with the colours of one paper."""
    def found(pattern):
        return re.search(pattern, css).groups()
    paper, ink = found(r'body\{background:(#\w{6});color:(#\w{6})')
    soft, = found(r'\.chart \.soft\{fill:(#\w{6})')
    late, late_edge = found(r'\.chart \.bar\.late\{fill:(#\w{6});stroke:(#\w{6})')
    tints = re.findall(r'\.chart \.t\d\{fill:(#\w{6});stroke:(#\w{6})', css)
    asked = [('ink on paper', ink, paper, 7), ('soft words on paper', soft, paper, 4.5), ('late words on paper', late_edge, paper, 4.5),
             ('words on late', ink, late, 4.5), ('late words on late', late_edge, late, 4.5), ('the edge of late', late_edge, late, 3)]
    for fill, edge in tints:
        asked += [('words on a bar', ink, fill, 4.5), ('the edge of a bar', edge, fill, 3), ('the edge of a bar on paper', edge, paper, 3)]
    few = [f'{what}: {contrast(a, b):.1f} of {least}' for what, a, b, least in asked if contrast(a, b) < least]
    return few + ([] if len(tints) == 4 else ['not four tints'])


# ---- pages

class Page(html.parser.HTMLParser):
    """The elements of a page, each with its attributes, its text and those around it; faults where tags do not match."""
    VOID = {'meta', 'link', 'br', 'hr', 'img', 'input'}

    def __init__(self, text):
        super().__init__(convert_charrefs=True)
        self.open, self.all, self.faults = [], [], []
        self.feed(text)
        self.close()
        self.faults += [f'<{element["tag"]}> is not closed' for element in self.open]

    def handle_starttag(self, tag, attributes):
        element = {'tag': tag, 'around': [other for other in self.open], 'text': '', **{name: value or '' for name, value in attributes}}
        self.all.append(element)
        if tag not in self.VOID:
            self.open.append(element)

    def handle_startendtag(self, tag, attributes):
        self.handle_starttag(tag, attributes)
        if tag not in self.VOID:
            self.open.pop()

    def handle_endtag(self, tag):
        if not self.open or self.open[-1]['tag'] != tag:
            self.faults.append(f'</{tag}> closes nothing')
            return
        self.open.pop()

    def handle_data(self, data):
        for element in self.open:
            element['text'] += data

    def every(self, tag, kind=None):
        return [element for element in self.all if element['tag'] == tag and (kind is None or kind in element.get('class', '').split())]


def inside(element, kind):
    return any(kind in other.get('class', '').split() for other in element['around'])


NARROW = 360 - 2 * 12
SHEET = (259.4 / 25.4 * 96, 190 / 25.4 * 96)   # of A4 and Letter, each with margins of 10 mm, the narrower and the lower


def lines(text, size, room, bold=False):
    """How many lines a text takes."""
    count, at = 1, 0
    for word in text.split():
        wide = width(word, size, bold)
        if at and at + wide > room + 0.01:
            count, at = count + 1, 0
        at += wide + width(' ', size, bold)
    return count


def column_widths(rows, size, padding, room):
    """How wide the columns of a table are, and whether they have room; those that may be broken share what is left."""
    columns = list(zip(*rows))
    plain = [max(width(cell['text'], size) for cell in column) + padding for column in columns]
    wrapped = ['wrapped' in column[0].get('class', '').split() for column in columns]
    left = room - sum(wide for wide, may in zip(plain, wrapped) if not may)
    wanted = sum(wide for wide, may in zip(plain, wrapped) if may)
    least = [max(width(word, size) for cell in column for word in cell['text'].split() or ['']) + padding for column in columns]
    wide = [min(plain[i], max(least[i], left * plain[i] / wanted)) if wrapped[i] else plain[i] for i in range(len(columns))]
    return wide, sum(wide) <= room


def on_paper(page):
    """What is wrong with the sheets: the table with its sentences is one."""
    faults = []
    for section in page.every('section', 'table')[:1]:
        cells = [c for c in page.all if c['tag'] in ('th', 'td') and section in c['around'] and not {'minute'} & set(c.get('class', '').split())]
        for cell in cells:
            short = [s for s in page.every('span', 'short') if cell in s['around']]
            cell['text'] = short[0]['text'] if short else cell['text']
        rows = {}
        for cell in cells:
            rows.setdefault(id([e for e in cell['around'] if e['tag'] == 'tr'][-1]), []).append(cell)
        rows = list(rows.values())
        high = 15 * 1.35 * lines(next(h['text'] for h in page.every('h2') if section in h['around']), 15, SHEET[0], True) + 4
        if rows and len(rows[0]) > 3:
            wide, fits = column_widths(rows, 11, 12, SHEET[0])
            if not fits:
                faults.append(f'the table is {sum(wide):.0f} of {SHEET[0]:.0f} wide on paper')
            broken = [[lines(cell['text'], 11, room - 12) for cell, room in zip(row, wide) if 'wrapped' in cell.get('class', '').split()] for row in rows]
            high += sum(11 * 1.35 * max(counts, default=1) + 3 for counts in broken)
        for p in (p for p in page.every('p') if section in p['around']):
            size = 11 if inside(p, 'below') else 12
            high += 8 + 1.35 * size * lines(p['text'], size, SHEET[0])
        if high + 6 > SHEET[1]:
            faults.append(f'the table and its sentences are {high + 6:.0f} of {SHEET[1]:.0f} high on paper')
    if page.every('footer'):
        faults.append('sentences behind the last table')
    return faults


def of_page(text):
    """What is wrong with a page."""
    page = Page(text)
    css = page.every('style')[0]['text']
    asked = ['@media print{', '@media screen and (max-width:700px){', '@media screen and (prefers-color-scheme:dark){', '@page{size:landscape;',
             '.picture,.scroll{overflow-x:auto}', 'thead{display:table-header-group}', 'tr{break-inside:avoid}', '.table{break-before:page}']
    faults = page.faults + [f'no rule {rule}' for rule in asked if rule not in css]
    if not any(meta.get('name') == 'viewport' and 'width=device-width' in meta['content'] for meta in page.every('meta')):
        faults.append('no viewport')
    faults += ['a picture without its box' for svg in page.every('svg') if not inside(svg, 'picture')]
    faults += ['a table without its box' for table in page.every('table') if not inside(table, 'scroll')]
    dark = css.index('@media screen and (prefers-color-scheme:dark)')
    faults += of_colours(css[:dark]) + [f'dark: {fault}' for fault in of_colours(css[dark:])]
    faults += [f'hours and minutes that break: {c["text"]}' for c in page.every('td') if c.get('data-head') in ('slack', 'lateness')
               and re.search(r'\d h | min', c['text'])]
    # on a narrow screen: tables of many columns are cards; of the others what cannot be broken has room
    for table in page.every('table'):
        rows = [c for c in page.all if c['tag'] in ('th', 'td') and table in c['around'] and 'minute' not in c.get('class', '').split()]
        heads = [cell for cell in rows if cell['tag'] == 'th']
        if 'cards' in table.get('class', ''):
            faults += [f'a cell without its head: {cell["text"]}' for cell in rows if cell['tag'] == 'td' and not cell.get('data-head')]
            continue
        if len(heads) > 3:
            faults.append(f'{len(heads)} columns on a narrow screen')
        stiff = [width(c['text'], 16) for c in rows if 'wrapped' not in c.get('class', '').split()]
        if max(stiff, default=0) + 12 > NARROW / 2:
            faults.append('a cell that fills a narrow screen')
    return faults + on_paper(page)


# ---- the wall

WALL = (100 / 2.9 - 1, 100 / 5.2 - 0.8)   # in letters' sizes, as the page's rules have it for every screen that is wider than high


def shown(element):
    return 'hidden' not in element


def of_wall(text):
    """What is wrong with the page for the wall."""
    page = Page(text)
    css = page.every('style')[0]['text']
    asked = ['html{font-size:min(2.9vw,5.2vh)}', '[hidden]{display:none!important}', '@media (orientation:portrait){',
             '@media screen and (prefers-color-scheme:dark){', 'grid-template-columns:15rem minmax(0,1fr)']
    faults = page.faults + [f'no rule {rule}' for rule in asked if rule not in css]
    softs = re.findall(r'h2,header p,i,small\{color:(#\w{6})\}', css)
    for soft, edge, ground in zip(softs, *zip(*re.findall(r'\.soon\{border-left-color:(#\w{6});background:(#\w{6})\}', css))):
        if contrast(soft, ground) < 4.5 or contrast(edge, ground) < 3:
            faults.append('what is next is not told apart')
    faults += [f'modules that break: {p}' for p in re.findall(r'<p>plug [^\n]*? on \d[^<]*', text)]
    buses = [li for li in page.every('li') if 'data-from' in li]
    next_up = [li for li in page.every('li') if 'data-start' in li]
    size = max((float(re.search(r'font-size:([\d.]+)rem', ul['style']).group(1)) for ul in page.every('ul') if 'style' in ul), default=1)
    at_once = max((sum(int(o['data-from']) <= int(b['data-from']) < int(o['data-to']) for o in buses) for b in buses), default=0)
    words = [p['text'] for p in page.every('p', 'said') if shown(p)]
    high = 1.65 + sum(0.5 + 0.96 * lines(word, 0.8, WALL[0] - 0.6, True) for word in words) + 0.8 + 1.2 * size * max(at_once, 1) + 0.5 + 0.8 + 3.6
    if high > WALL[1]:
        faults.append(f'who is on charge and who is next are {high:.1f} of {WALL[1]:.1f} high')
    if size < 1 and at_once <= 7:
        faults.append('small letters for few buses')
    for li in buses + next_up:
        b = next(b for b in page.every('b') if li in b['around'])
        smaller = re.search(r'font-size:([\d.]+)em', b.get('style', ''))
        mark = 2.1 if page.every('em') and any(li in em['around'] for em in page.every('em')) else 0
        wide = width(b['text'], float(smaller.group(1)) if smaller else 1, True) + mark
        time = [s['text'] for s in page.every('span') if li in s['around']][-1]
        room = 15 - 3.6 - 0.8 - width(time, 1)
        if wide > room + 0.05:
            faults.append(f'{b["text"]} is {wide:.1f} of {room:.1f} wide on the wall')
        if ('late' in li.get('class', '').split()) != (mark > 0):
            faults.append(f'{b["text"]} is late and is not marked')
    times = [width(re.sub(r'in \d+ min|now', '', t['text']), 1.1, True) for t in page.every('time') if inside_tag(t, 'ol')]
    if max(times, default=0) > (5.4 if page.every('ol', 'days') else 3.8):
        faults.append('a time that is wider than its column')
    return faults


def inside_tag(element, tag):
    return any(other['tag'] == tag for other in element['around'])


NODE = '''
const elements = JSON.parse(process.argv[1]), script = process.argv[2], times = JSON.parse(process.argv[3]), Real = Date;
let made, when;
const fresh = () => elements.map(e => ({ ...e, hidden: 'hidden' in e, className: e.class || '', small: { textContent: '' },
  getAttribute(name) { return e[name]; }, querySelector() { return this.small; } }));
const byId = id => made.find(e => e.id === id);
global.document = { querySelectorAll: s => made.filter(e => s.slice(1, -1) in e), getElementById: byId };
global.Date = class extends Real { constructor(...a) { if (a.length) super(...a); else super(when); } };
global.setInterval = () => {};
const seen = () => made.filter(e => !e.hidden && ['li', 'p'].includes(e.tag)).map(e =>
  [e.id || e['data-from'] && 'on ' + e.text || e['data-start'] && 'next ' + e.text || 'do ' + e['data-at'], e.className, e.small.textContent]);
console.log(JSON.stringify(times.map(time => { made = fresh(); when = time; (0, eval)(script); return seen(); })));
'''


def by_script(page, times):
    """What the wall's script shows at each of these times, or why it fails."""
    known = ('tag', 'id', 'class', 'hidden', 'text', 'data-from', 'data-to', 'data-start', 'data-at')
    elements = [{name: e[name] for name in known if name in e} for e in page.all if e['tag'] in ('li', 'p', 'small', 'time')]
    run = subprocess.run(['node', '-e', NODE, '--', json.dumps(elements), page.every('script')[0]['text'], json.dumps(times)],
                         capture_output=True, text=True, timeout=60, env={**os.environ, 'TZ': 'UTC'})
    return json.loads(run.stdout) if run.returncode == 0 else run.stderr.strip()[-300:]


def standing(page):
    """What the page for a time shows, in the same form."""
    found = []
    for e in page.all:
        if e['tag'] not in ('li', 'p') or not shown(e):
            continue
        kind = e.get('id') or ('on ' + e['text'] if 'data-from' in e else 'next ' + e['text'] if 'data-start' in e else f'do {e.get("data-at")}')
        small = [s['text'] for s in page.every('small') if e in s['around']] if 'data-at' in e else ['']
        found.append([kind, e.get('class', ''), small[0]])
    return found


def of_script(source):
    """What is wrong with the wall's script beside 'depot plan --now', by a day's time with and without a date."""
    for dated in ([], ['--date', '2026-11-17']):
        page = Page(planned(source, '--wall', '-', *dated))
        if not page.every('script'):
            return []
        start = json.loads(planned(source, '--json'))['jobs'][0]
        first = (int(start['start_time'][:2]) * 60 + int(start['start_time'][3:5]) - start['start']) % 1440
        minutes = (-60, -1, 0, 4, 5, 47, 150, 199, 260, 324, 333, 475, 479, 486, 600)
        times = [(datetime.datetime(2026, 11, 17) + datetime.timedelta(minutes=first + minute)).isoformat() for minute in minutes]
        shown = by_script(page, times)
        if isinstance(shown, str):
            return [shown]
        for when, live in zip(times, shown):
            still = standing(Page(planned(source, '--wall', '-', '--now', when[11:16], *dated)))
            # without a script no line of a turn is cleared of what it said; both name the same turns
            live = [line for line in live if line[0] != 'do undefined']
            still = [line for line in still if line[0] != 'do None']
            if live != still:
                return [f'{when}: the script shows {live}, --now {still}'[:600]]
    return []


# ---- a browser

MEASURE = """(() => {
const faults = [], wide = innerWidth, all = selector => [...document.querySelectorAll(selector)];
const within = (a, b) => a.left >= b.left - 0.5 && a.right <= b.right + 0.5 && a.top >= b.top - 1.5 && a.bottom <= b.bottom + 1.5;
const box = element => element.getBoundingClientRect();
function picture(svg) {
  const page = box(svg), texts = [...svg.querySelectorAll('text')];
  const straight = texts.filter(text => !text.hasAttribute('transform'));
  for (const text of texts) if (!within(box(text), page)) faults.push('outside: ' + text.textContent);
  for (let i = 0; i < straight.length; i++) for (let j = 0; j < i; j++) {
    const a = box(straight[i]), b = box(straight[j]);
    const wide = Math.min(a.right, b.right) - Math.max(a.left, b.left), high = Math.min(a.bottom, b.bottom) - Math.max(a.top, b.top);
    if (wide > -APART && high > 3.5) faults.push('run together: ' + straight[i].textContent + ' and ' + straight[j].textContent);
  }
  const bars = [...svg.querySelectorAll('rect.bar')].map(box);
  for (const ground of svg.querySelectorAll('rect.ground')) {
    const text = ground.nextElementSibling;
    if (!bars.some(bar => within(box(text), bar))) faults.push('not in its bar: ' + text.textContent);
  }
}
if (document.scrollingElement.scrollWidth > wide) faults.push('sideways: ' + document.scrollingElement.scrollWidth);
if (wide > 1000) all('svg.chart').forEach(picture);
if (wide < 500) for (const table of all('.scroll')) if (table.scrollWidth > table.clientWidth) faults.push('a table goes sideways');
if (wide === 1920) for (const bus of all('.buses li'))
  if (!bus.hidden && box(bus).bottom > innerHeight) faults.push('below the wall: ' + bus.textContent);
return faults;
})()"""
PAPER = "getComputedStyle(document.body).backgroundColor.match(/[0-9]+/g).slice(0, 3).reduce((sum, part) => sum + Number(part), 0)"

# on which screens a page and the wall are seen, and of which a screenshot is left, light and dark
PAGE_VIEWS = ((1240, 1500, ''), (430, 900, None), (360, 740, '-phone'))
WALL_VIEWS = ((1920, 1080, ''), (1080, 1920, None), (390, 844, '-phone'))
A4, LETTER = (8.27, 11.69), (8.5, 11)   # in inches
MOST_SHEETS, MOST_NIGHT_SHEETS = 3, 4
MOST_BYTES = 2_000_000                  # of a PDF that is mailed


def fullest(wall):
    """The minute at which most buses are on charge on the wall."""
    buses = [(int(li['data-from']), int(li['data-to'])) for li in Page(wall).every('li') if 'data-from' in li]
    return max((start for start, _ in buses), key=lambda minute: sum(start <= minute < end for start, end in buses), default=0)


def seen(browser, path, views, name=None, most_sheets=None, modes=('light', 'dark'), paper=A4):
    """What the browser finds wrong with a page on these screens and, where it may have so many sheets, on paper. With a name it leaves
    screenshots, of a narrow screen as long as the page is, and PDFs."""
    faults = []
    for wide, high, shot in views:
        browser.show(path, wide, high)
        faults += [f'{wide} wide: {fault}' for fault in browser.value(MEASURE.replace("APART", str(APART)))]
        for mode in modes if shot is not None else ():
            browser.colours(mode)
            if path.suffix == '.html' and (browser.value(PAPER) < 3 * 128) != (mode == 'dark'):
                faults.append(f'{wide} wide: not {mode}')
            if name:
                (SEEN / f'{name}{shot}-{mode}.png').write_bytes(browser.picture(wide < 500))
    if most_sheets:
        pdf = browser.paper(*paper)
        sheets = len(re.findall(rb'/Type\s*/Page[^s]', pdf))
        if not 0 < sheets <= most_sheets:
            faults.append(f'{sheets} sheets of paper')
        if len(pdf) > MOST_BYTES:
            faults.append(f'{len(pdf)} bytes of paper')
        if name:
            (SEEN / f'{name}.pdf').write_bytes(pdf)
    return faults


def seen_on_wall(browser, source, wall, heading, name, modes):
    """The same of the wall when most buses are on charge: by its script, or for that minute where it has none."""
    minute, start = fullest(wall.read_text()), re.search(r'var plan = \{start: (\d+)', wall.read_text())
    if not start:
        planned(source, '--wall', wall, '--now', str(minute), *heading)
    browser.clock(datetime.datetime(2026, 12, 31) + datetime.timedelta(minutes=minute + int(start.group(1) if start else 0)))
    return [f'wall {fault}' for fault in seen(browser, wall, WALL_VIEWS, f'{name}-wall', modes=modes)]


def spoilt_in(browser):
    """Changes that the browser must find out; those that it does not."""
    source, file = ROOT / 'examples/on-the-road.csv', SEEN / 'spoilt.html'
    page, wall = planned(source, '--html', '-'), planned(source, '--wall', '-', '--now', '22:00')

    def of_page(text):
        file.write_text(text)
        return seen(browser, file, PAGE_VIEWS, most_sheets=MOST_SHEETS)

    def of_wall(text):
        file.write_text(text)
        return seen(browser, file, WALL_VIEWS)
    faults = of_page(page) + of_wall(wall) + not_found_out([
        ('a label wider than its bar', of_page, r'(ground".*\n<text class="strong"[^>]*>)N8', r'\1N8 and N9 and N10 and N11', page),
        ('a word outside', of_page, r'<text class="end-word"[^>]*>', '<text class="end-word" x="1100" y="500">', page),
        ('a word on another', of_page, r'(<text class="lead" x="24.0" y=")71.0', r'\g<1>60.0', page),
        ('a page that goes sideways', of_page, '<main>', '<main style="min-width:1300px">', page),
        ('a table that goes sideways on a phone', of_page, '<table>', '<table style="min-width:400px">', page),
        ('a page that stays light', of_page, r'\(prefers-color-scheme:dark\)', '(prefers-color-scheme:none)', page),
        ('a fourth sheet', of_page, '</main>', '<section class="table">More.</section></main>', page),
        ('buses below the wall', of_wall, '</style>', '.buses li{padding:2rem}</style>', wall),
        ('a wall that goes sideways', of_wall, '</style>', 'main{min-width:101vw}</style>', wall),
    ])
    file.unlink()
    return faults


# ---- the cases

def run(*words):
    ran = subprocess.run([DEPOT, *words], capture_output=True, text=True)
    if ran.returncode != 0:
        raise SystemExit(f'pictures: depot {" ".join(map(str, words))}: {ran.stderr}')
    return ran.stdout


def planned(source, *words):
    return run('plan', source, *words)


def looked_at(name, source, browser):
    """What is wrong with picture, page and wall of a list, as it is and with a depot and a date."""
    faults = []
    for kind, heading in (('', []), ('-headed', HEADING)):
        svg, page, wall = (SEEN / f'{name}{kind}{end}' for end in ('.svg', '.html', '-wall.html'))
        planned(source, '--svg', svg, '--html', page, '--wall', wall, *heading)
        drawn = xml.dom.minidom.parse(str(svg)).documentElement
        found = of_picture(drawn, said(drawn.getElementsByTagName('style')[0]))
        found += of_page(page.read_text()) + of_wall(wall.read_text())
        if browser:
            modes, paper = (('light',), LETTER) if heading else (('light', 'dark'), A4)
            found += seen(browser, page, PAGE_VIEWS, f'{name}{kind}', MOST_SHEETS, modes, paper)
            found += seen_on_wall(browser, source, wall, heading, f'{name}{kind}', modes)
        faults += [f'{kind.lstrip("-")} {fault}'.strip() for fault in found]
    return faults


def not_found_out(changes):
    """Of changes to pages and pictures, each with the look that must find it out, those that it does not."""
    found = []
    for what, look, pattern, by, text in changes:
        changed = re.sub(pattern, by, text, count=1)
        assert changed != text, pattern
        found += [] if look(changed) else [f'not found out: {what}']
    return found


def spoilt():
    """Changes that must be found out; those that are not."""
    source = ROOT / 'examples/on-the-road.csv'
    svg, page, wall = (planned(source, option, '-') for option in ('--svg', '--html', '--wall'))

    def picture(text):
        drawn = xml.dom.minidom.parseString(text).documentElement
        return of_picture(drawn, said(drawn.getElementsByTagName('style')[0]))

    return not_found_out([
        ('a label wider than its bar', picture, r'(ground".*\n<text class="strong"[^>]*>)N8', r'\1N8 and N9 and N10 and N11', svg),
        ('a bar outside', picture, r'<rect class="bar t0" x="[\d.]+"', '<rect class="bar t0" x="1110.0"', svg),
        ('a word outside', picture, r'<text class="end-word"[^>]*>', '<text class="end-word" x="1100" y="500">', svg),
        ('a word on another', picture, r'(<text class="lead" x="24.0" y=")71.0', r'\g<1>60.0', svg),
        ('a line outside', picture, r'<line class="grid" x1="74.0"', '<line class="grid" x1="-4.0"', svg),
        ('figures that run together', picture, r'(text-anchor="end" x="[\d.]+" y="[\d.]+">)(03:50\+1<)', r'\g<1>20:45 \2', svg),
        ('a line through a word', picture, r'<text class="end-word"[^>]*>', '<text class="end-word" text-anchor="middle" x="600" y="300">', svg),
        ('hours and minutes that break', of_page, r'&nbsp;h&nbsp;', ' h ', page),
        ('late without hatching', picture, r'<rect class="hatched"[^>]*/>', '', svg),
        ('a slanting word in the key', picture, r'translate\([\d.]+( [\d.]+\) rotate\(-60)', r'translate(705.0\1', svg),
        ('a tag that is not closed', of_page, '</section>', '', page),
        ('no rules for paper', of_page, '@media print', '@media nothing', page),
        ('no rules for a narrow screen', of_page, r'max-width:700px', 'max-width:70px', page),
        ('a picture without its box', of_page, '<div class="picture"', '<div class="other"', page),
        ('grey on grey', of_page, r'(\.chart \.t2\{fill:#\w{6};stroke:)#\w{6}', r'\1#c0b8d8', page),
        ('sentences on a sheet of their own', of_page, '</main>', '</main><footer><p>None ends earlier.</p></footer>', page),
        ('a table that is too high', of_page, r'(?s)(<tr class="late">.*?</tr>)', r'\1' * 30, page),
        ('a late bus that is not marked', of_wall, ' <em>late</em></span>', '</span>', wall),
        ('modules that break', of_wall, r' on <span>', ' on ', wall.replace('</span></p>', '</p>')),
        ('a label that is too wide', of_wall, '<b>A301</b>', '<b>A301 A301 A301 A301</b>', wall),
        ('hidden buses that are shown', of_wall, r'\[hidden\]\{[^}]*\}', '', wall),
    ]) + picture(svg) + of_page(page) + of_wall(wall)


def other_pictures(browser):
    """The pictures of desks and nights, and pages of nights."""
    for path in sorted((ROOT / 'examples').glob('*.svg')):
        drawn = xml.dom.minidom.parse(str(path)).documentElement
        faults = of_picture(drawn, said(drawn.getElementsByTagName('style')[0]))
        yield path.name, faults + (seen(browser, path, PAGE_VIEWS[:1], f'{path.stem}-svg', modes=('light',)) if browser else [])
    for path, *more in NIGHTS:
        file = SEEN / f'{path.stem}-night.html'
        run('run', path, '--html', file, *more)
        night = Page(file.read_text())
        faults = night.faults + ['a picture without its box' for svg in night.every('svg') if not inside(svg, 'picture')]
        yield file.name, faults + (seen(browser, file, PAGE_VIEWS, file.stem, MOST_NIGHT_SHEETS) if browser else [])


def results(browser):
    """What was looked at, and what is wrong with it."""
    cases = {path.stem: path for path in sorted((ROOT / 'examples').glob('*.csv'))}
    examples = dict(cases)
    for name, text in ODD.items():
        cases[name] = SEEN / f'{name}.csv'
        cases[name].write_text(text)
    yield 'spoilt pictures and pages', spoilt()
    if browser:
        yield 'the same in the browser', spoilt_in(browser)
    for name, source in cases.items():
        yield name, looked_at(name, source, browser)
    yield from other_pictures(browser)
    if shutil.which('node'):
        for name, source in examples.items():
            yield f"{name}'s script", of_script(source)
    else:
        print("no node: the wall's script was not run")


def looked(browser):
    """How many were looked at, and how many have faults."""
    count = failed = 0
    for name, faults in results(browser):
        print(f'{name}: {"; ".join(faults) or "as computed"}', flush=True)
        count, failed = count + 1, failed + bool(faults)
    return count, failed


def main():
    if not DEPOT.exists():
        sys.exit('pictures: the command line is not built: cargo build --release in host/')
    shutil.rmtree(SEEN, ignore_errors=True)
    SEEN.mkdir(parents=True)
    name = devtools.installed()
    try:
        with devtools.Browser(name) if name else contextlib.nullcontext() as browser:
            count, failed = looked(browser)
        measured = f'measured by {name}; look at {SEEN.relative_to(ROOT)}/*.png'
    except devtools.Silent as why:
        measured, count, failed = f'not measured: {name}: {why}', 1, 1
    print(measured if name else f'no browser: not measured (looked for {", ".join(devtools.BROWSERS)}); what needs none was computed')
    print(f'{count - failed} passed, {failed} failed')
    sys.exit(1 if failed else 0)


if __name__ == '__main__':
    main()
