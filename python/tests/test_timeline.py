#!/usr/bin/env python3
"""Tests tools/timeline: places and widths of what is drawn, what it says if there is too much,
and in a browser, if Chromium exists, that no text is cut or covers another. The last line is
'N passed, M failed'."""
import datetime
import html
import json
import os
import re
import shutil
import struct
import subprocess
import sys
import unittest
import xml.etree.ElementTree
from typing import Any, Optional
from xml.etree.ElementTree import Element

import support
from bitemporal_tools.pictures import png
from folders import ROOT
from support import tool

EXAMPLE = ROOT / 'examples/pay_history.sql'
CREATE = support.create_table('%s', 'K INTEGER, V VARCHAR(1000)', 'K')
ALL_TIME = "FOR SYSTEM_TIME FROM TIMESTAMP '0001-01-01 00:00:00' TO TIMESTAMP '9999-12-31 23:59:59'"
SAID = re.compile(r'from (\d+-\d+-\d+) on, no longer on (\d+-\d+-\d+)')
SVG = '{http://www.w3.org/2000/svg}'


def row(key: int, text: str, start: str, end: str) -> str:
    return "({}, '{}', DATE '{}', DATE '{}')".format(key, text.replace("'", "''"), start, end)


def awkward_script() -> str:
    """Long texts, markup and control characters, many lines and moments, one day, all days."""
    texts = ['long ' * 180, '\u65e5\u672c' * 200, 'W' * 500, '<script>alert(1)</script>&amp;"',
             'a\x1b[2J\x00\ttab\nline', '', 'i' * 300]
    statements = [
        CREATE % 'ODD', 'INSERT INTO ODD VALUES ' + ', '.join(
            row(number, text, '2024-01-01', f'2024-0{number + 2}-01')
            for number, text in enumerate(texts)),
        'VALIDTIME SELECT DISTINCT V FROM ODD', f'SELECT * FROM ODD {ALL_TIME}',
        CREATE % 'MANY', 'INSERT INTO MANY VALUES ' + ', '.join(
            row(number, 'x', '2024-01-01', '9999-12-31') for number in range(160)),
        '-- ' + 'a long comment ' * 20 + '\nVALIDTIME SELECT DISTINCT K FROM MANY',
        'SELECT * FROM MANY',
        CREATE % 'ONE', 'INSERT INTO ONE VALUES ' + row(1, 'a day', '2024-02-29', '2024-03-01'),
        'VALIDTIME SELECT DISTINCT V FROM ONE', f'SELECT * FROM ONE {ALL_TIME}',
        'VALIDTIME SELECT DISTINCT V FROM ONE WHERE K = 2', 'SELECT * FROM ONE WHERE K = 2',
        CREATE % 'ALL_DAYS', 'INSERT INTO ALL_DAYS VALUES ' + ', '.join([
            row(1, 'always', '0001-01-01', '9999-12-31'), row(2, 'b', '0001-01-02', '9999-12-30'),
            row(3, 'c', '0001-01-01', '0001-01-02'), row(4, 'd', '9999-12-30', '9999-12-31')]),
        'VALIDTIME SELECT DISTINCT V FROM ALL_DAYS', 'SELECT * FROM ALL_DAYS',
        CREATE % 'OFTEN', 'INSERT INTO OFTEN VALUES ' + row(1, 'v', '2024-01-01', '2025-01-01')]
    for number in range(70):
        statements.append(f"AT TIMESTAMP '2024-01-01 00:00:00.{number:06}'")
        statements.append(f"UPDATE OFTEN FOR PORTION OF P FROM DATE '2024-0{number % 9 + 1}-01' TO"
                          f" DATE '2024-12-01' SET V = 'v{number}'")
    statements.append(f'SELECT * FROM OFTEN {ALL_TIME}')
    return ';\n'.join(statements)


def pictures(page: str) -> list[Element]:
    """The SVG pictures of a page, as trees."""
    return [xml.etree.ElementTree.fromstring(text)
            for text in re.findall('<svg.*?</svg>', page, re.DOTALL)]


def texts_of(picture: Element) -> list[str]:
    return [text.text or '' for text in picture.iter(SVG + 'text')]


def day(text: str) -> int:
    return datetime.date.fromisoformat(text).toordinal()


STAFF = CREATE % 'STAFF' + ";INSERT INTO STAFF VALUES {};\n" \
    '-- Everybody\n-- name: staff\nVALIDTIME SELECT DISTINCT K, V FROM STAFF'.format(', '.join([
        row(101, 'Sales', '2024-01-01', '2024-07-01'),
        row(102, 'Sales', '2024-03-01', '2024-05-01'),
        row(103, 'Sales', '2024-08-01', '2024-10-01'), row(3, 'R&D', '2024-02-01', '9999-12-31')]))


def said_by(box: Element) -> str:
    return ''.join(text.text or '' for text in box.iter(SVG + 'title'))


def size_of(box: Element, name: str) -> float:
    return float(box.get(name, 'nan'))


def boxes_of(picture: Element) -> list[tuple[str, float]]:
    """The text of each box of a picture, with its height."""
    return [(said_by(box), size_of(box, 'height')) for box in picture.iter(SVG + 'rect')]


# A converter that writes the first line of a picture after the signature of PNG.
COPIES = r"""printf '\211PNG\r\n\032\n' > "$2"; read -r line < "$3"
echo "$line" >> "$2" """


def png_converter() -> Optional[str]:
    return next(filter(shutil.which, png.CONVERTERS), None)


# Faults of the texts of a page: one that leaves its picture, one that covers another, one
# inside a box that leaves it.
LAYOUT = '''<script>
const wrong = [];
for (const svg of document.querySelectorAll('svg')) {
  const size = svg.viewBox.baseVal;
  const texts = [...svg.querySelectorAll('text')].filter(text => text.textContent !== '')
    .map(text => [text, text.getBBox()]);
  const boxes = [...svg.querySelectorAll('rect')].map(box => box.getBBox());
  texts.forEach(([text, at], place) => {
    const words = text.textContent.slice(0, 40);
    if (at.x < 0 || at.y < 0 || at.x + at.width > size.width || at.y + at.height > size.height)
      wrong.push('cut: ' + words);
    const kind = text.getAttribute('class');
    if ((kind === 'inside' || kind === 'ended-text') && !boxes.some(box => box.x <= at.x &&
        at.x + at.width <= box.x + box.width && box.y <= at.y + 3 &&
        at.y + at.height <= box.y + box.height + 3))
      wrong.push('not in its box: ' + words);
    for (const [other, there] of texts.slice(place + 1))
      if (at.x < there.x + there.width && there.x < at.x + at.width &&
          at.y + 3 < there.y + there.height && there.y + 3 < at.y + at.height)
        wrong.push('covered: ' + words + ' by ' + other.textContent.slice(0, 40));
  });
}
const found = {wrong: wrong, texts: document.querySelectorAll('svg text').length,
  height: document.documentElement.scrollHeight};
document.body.insertAdjacentHTML('beforeend', '<pre id="layout"></pre>');
document.getElementById('layout').textContent = JSON.stringify(found);
</script>'''


def browser() -> Optional[str]:
    for name in ('chromium-headless-shell', 'chromium', 'chromium-browser'):
        if shutil.which(name):
            return name
    return None


class Timeline(support.Case):
    """Pictures of reports."""

    def written(self, script: str) -> tuple[str, str]:
        """The files of a script and of its report."""
        return (self.files.write('x.sql', script),
                self.files.write('x.report', support.report(script)))

    def test_places(self) -> None:
        """Every bar is where its days are: one scale for all that a picture shows."""
        report = EXAMPLE.with_suffix('.report')
        status, svg, told = tool('timeline', EXAMPLE, report, '--only', '9,10,11', '--svg')
        self.equal('a picture alone', (status, told), (0, ''))
        picture = xml.etree.ElementTree.fromstring(svg)
        bars = []
        for box in picture.iter(SVG + 'rect'):
            start, end = map(day, SAID.findall(said_by(box))[0])
            bars.append((start, end, size_of(box, 'x'), size_of(box, 'width')))
        self.equal('bars', len(bars), 8 + 4 + 3)
        first, last = min(bars), max(bars)
        scale = (last[2] - first[2]) / (last[0] - first[0])
        wrong = [bar for bar in bars
                 if abs(first[2] + scale * (bar[0] - first[0]) - bar[2]) > 0.2
                 or bar[1] < day('9999-12-31') and abs(scale * (bar[1] - bar[0]) - bar[3]) > 0.2]
        self.equal('places and widths', wrong, [])
        kinds = [box.get('class') for box in picture.iter(SVG + 'rect')]
        self.equal('current and ended', (kinds.count('current'), kinds.count('ended')), (5, 3))
        dots = [dot.get('class') for dot in picture.iter(SVG + 'circle')]
        self.equal('witnesses', (dots.count('held'), dots.count('absent')), (7, 7))
        marks = [line for line in picture.iter(SVG + 'line') if line.get('class') == 'past']
        self.equal('the AS OF in both planes', len(marks), 2)
        shown = (ROOT / 'docs/pay_history.svg').read_text(encoding='utf-8')
        self.holds('the picture of the documents', shown == svg and len(svg) < 100_000)

    def test_words(self) -> None:
        """Awkward texts, and more of them than one picture shows."""
        status, page, told = tool('timeline', *self.written(awkward_script()))
        self.equal('awkward answers', (status, told), (0, ''))
        found = [texts_of(picture) for picture in pictures(page)]
        self.equal('pictures', len(found), 15)
        self.holds('no script', '<script' not in page and '\x1b' not in page and
                   not re.search('(src|href|url|import)[=( ]', page))
        self.holds('nothing from elsewhere',
                   set(re.findall(r'https?://[^"]*', page)) == {'http://www.w3.org/2000/svg'})
        self.holds('markup is text', '<script>alert(1)</script>&amp;"' in found[0])
        self.holds('control characters', 'a\\x1b[2J\\x00\\x09tab\\x0aline' in found[0], found[0])
        self.holds('long texts are cut', any(text.endswith('\u2026') for text in found[0]) and
                   max(map(len, found[0])) < 120)
        for kind, first in (('row', 2), ('version', 5)):
            shown = found[first:first + 3]
            for number, texts in enumerate(shown, 1):
                self.holds(f'{kind}s, page {number}',
                           texts[0].endswith(f' (160 {kind}s, page {number} of 3)'), texts[0])
            labels = [text.replace('K ', '') for texts in shown for text in texts
                      if re.fullmatch('(K )?[0-9]{1,3}', text)]
            self.equal(f'all {kind}s', labels, [str(number) for number in range(160)])
        self.holds('one day', {'2024-02-29', '2024-03-01', 'a day'} <= set(found[8]), found[8])
        self.holds('no row', 'no row' in found[10] and 'no version' in found[11])
        self.holds('all days', {'always', '2000', '8000'} <= set(found[12]), found[12])
        self.holds('many moments', 'and 11 earlier moments' in found[14], found[14])

    def test_letters(self) -> None:
        script = CREATE % 'T' + ";INSERT INTO T VALUES {}, {}, {}; -- staff\n" \
            '-- Who?\nVALIDTIME SELECT DISTINCT V FROM T'.format(
                row(1, 'always', '0001-01-01', '9999-12-31'),
                row(2, '\u65e5\u672c', '2024-01-01', '2024-07-01'),
                row(3, 'a text that is rather long', '2024-07-01', '2025-01-01'))
        path = self.files.write('x.sql', script)
        status, drawn, _ = tool('timeline', path, '--text', given=support.report(script).encode())
        lines = drawn.splitlines()
        self.equal('in letters', (status, lines[0], lines[1].split()[0]),
                   (0, '3: Who? (3 rows)', 'a'))
        bars = [next(re.finditer('[<|]=+[>|]', line)) for line in lines[1:4]]
        self.equal('bars in letters', [(bar[0][0], bar[0][-1]) for bar in bars],
                   [('|', '|'), ('<', '>'), ('|', '|')])
        # The second half of the year begins where the first ends. A wide letter takes two columns.
        self.equal('days in letters', bars[0].start() - 2, bars[2].end() - 1)
        self.equal('a long text in letters', lines[1][:26], 'a text that is rather l\u2026  ')

    def test_turned_away(self) -> None:
        report = EXAMPLE.with_suffix('.report')
        self.equal('an answer by its name', tool('timeline', EXAMPLE, report, '--only',
                                                 '10-which-pay-was-there-as-it-is-known-now'),
                   tool('timeline', EXAMPLE, report, '--only', '10'))
        for words, status in ((['--only', '3'], 1), (['--only', 'x'], 1), (['--most', '0'], 2),
                              (['--svg', '--text'], 2), (['--svg', '--page', '2'], 2),
                              (['--svg', '--page', '0'], 2), (['--by', 'ENO'], 2),
                              (['--only', '10', '--count', '--by', 'X'], 2),
                              (['--only', '9', '--count'], 2)):
            self.equal(f'turned away: {words}', tool('timeline', EXAMPLE, report, *words)[:2],
                       (status, ''))
        told = tool('timeline', EXAMPLE, report, '--by', 'ENO')[2]
        self.holds('a column that an answer lacks', 'statement 10 has no such column' in told, told)
        other = self.files.write('other.report', 'done,1,create,0\n')
        self.equal('another report', tool('timeline', EXAMPLE, other)[:2], (2, ''))
        script = 'VALIDTIME SELECT DISTINCT K FROM NOWHERE'
        status, page, told = tool('timeline', self.files.write('x.sql', script),
                                  self.files.write('x.report', support.report(script)))
        self.holds('a refused statement',
                   status == 1 and '23 UnknownTable' in told and '</html>' in page)

    def test_lanes(self) -> None:
        """A lane for each value of a column; a row that another covers is on a line of its own."""
        path, report = self.written(STAFF)
        words = ['timeline', path, report, '--lane', 'v']
        status, svg, told = tool(*words, '--svg', '--title', 'Staff & <b>')
        self.equal('lanes', (status, told), (0, ''))
        texts = texts_of(xml.etree.ElementTree.fromstring(svg))
        self.equal('a title, a heading and a key of lanes', texts[:8], [
            'Staff & <b>', '3: Everybody (4 rows)', 'R&D', '3', 'Sales', '101', '103', ''])
        self.holds('a covered row', '102' in texts, texts)
        drawn = tool('timeline', path, report, '--text', '--by', 'V')[1].splitlines()
        self.equal('lanes in letters', [line[:5].strip() for line in drawn[1:4]],
                   ['R&D', 'Sales', ''])
        self.equal('bars of lanes in letters', [line.count('|') for line in drawn[1:4]], [1, 4, 2])

    def test_curves(self) -> None:
        path, report = self.written(STAFF)
        words = ['timeline', path, report, '--only', 'staff', '--count', '--sum', 'K', '--by', 'V']
        picture = xml.etree.ElementTree.fromstring(tool(*words, '--svg')[1])
        found = boxes_of(picture)
        counted = [(said, height) for said, height in found if ', COUNT' in said]
        self.equal('counts as curves', [said for said, _ in counted], [
            'R&D, COUNT 1: from 2024-02-01 on, no longer on 9999-12-31',
            'Sales, COUNT 1: from 2024-01-01 on, no longer on 2024-03-01',
            'Sales, COUNT 2: from 2024-03-01 on, no longer on 2024-05-01',
            'Sales, COUNT 1: from 2024-05-01 on, no longer on 2024-07-01',
            'Sales, COUNT 1: from 2024-08-01 on, no longer on 2024-10-01'])
        heights = {height / counted[0][1] for _, height in counted}
        self.equal('heights of counts', heights, {1.0, 2.0})
        sums = [number for said, _ in found for number in re.findall('SUM_K (\\d+)', said)]
        self.equal('sums as curves', sums, ['3', '101', '203', '101', '103'])
        lines = tool(*words, '--text')[1].splitlines()
        self.equal('curves in letters', lines[0], '3: Everybody, by V (4 curves)')
        self.equal('totals in letters', [re.findall('[0-9]+', line[12:]) for line in lines[1:3]],
                   [['1'], ['1', '2', '1', '1']])

    def test_png(self) -> None:
        """By a converter of our own, by none, by one that fails, and by one that is installed."""
        path, report = self.written(STAFF)
        words = ['timeline', path, report, '--png']
        before = os.environ['PATH']
        try:
            folder = self.files.path('bin')
            os.makedirs(folder)
            os.environ['PATH'] = folder
            status, output, told = tool(*words)
            self.equal('no converter', (status, output), (2, ''))
            self.holds('which to install', 'librsvg2-bin' in told, told)
            for script, wanted in ((COPIES, 0), ('echo it fails >&2; exit 1', 2)):
                converter = self.files.write('bin/rsvg-convert', f'#!/bin/sh\n{script}\n')
                os.chmod(converter, 0o755)
                ran = support.run([sys.executable, ROOT / 'tools/timeline', *words[1:]])
                self.equal(f'a converter: {script}', ran[0], wanted)
                if wanted:
                    self.holds('what it says', ran[2].endswith(b'picture: it fails\n'), ran[2])
                else:
                    self.holds('its output', ran[1].startswith(b'\x89PNG\r\n\x1a\n<svg '), ran[1])
        finally:
            os.environ['PATH'] = before
        if png_converter():
            ran = support.run([ROOT / 'tools/timeline', *words[1:]])
            self.equal('PNG', (ran[0], struct.unpack('>I', ran[1][16:20].ljust(4))[0]), (0, 1040))
        else:
            print('tools/timeline --png: no converter here, so it is left out')

    @unittest.skipIf(browser() is None, 'no Chromium here')
    def test_browser(self) -> None:
        """No text leaves its picture or covers another, and something is drawn."""
        odd = STAFF.replace('INTO STAFF VALUES', 'INTO STAFF VALUES ' + ', '.join([
            row(-10 ** 18, 'W' * 300, '2024-02-29', '2024-03-01'),
            row(10 ** 18, 'Sales', '2024-02-29', '2024-03-01'),
            row(9, 'Sales', '0001-01-01', '9999-12-31'), '']))
        pages = {'awkward': tool('timeline', *self.written(awkward_script()))[1],
                 'together': tool('timeline', EXAMPLE, EXAMPLE.with_suffix('.report'), '--only',
                                  '9,10,11')[1]}
        for name, script in ('plain', STAFF), ('odd', odd):
            words = ['timeline', *self.written(script), '--lane', 'V']
            pages[f'{name} lanes'] = tool(*words)[1]
            pages[f'{name} curves'] = tool(*words, '--count', '--sum', 'K')[1]
        for title, page in pages.items():
            found = self.layout(page)
            self.equal(f'{title}: texts', found['wrong'], [])
            self.holds(f'{title}: some texts', found['texts'] > 10, found)
            size = 1120, min(found['height'], 3000)
            data = self.screenshot(page, size)
            self.equal(f'{title}: size', struct.unpack('>II', data[16:24].ljust(8)), size)
            # A blank page of this size takes some 5 KB.
            self.holds(f'{title}: something is drawn', len(data) > 20_000, len(data))

    def layout(self, page: str) -> dict[str, Any]:
        """The browser's findings on a page."""
        path = self.files.write('layout.html', page.replace('</body>', LAYOUT + '</body>'))
        shown = self.browse('--window-size=1120,900', '--dump-dom', f'file://{path}')
        [text] = re.findall('<pre id="layout">({.*?)</pre>', shown, re.DOTALL)[-1:]
        found: dict[str, Any] = json.loads(html.unescape(text))
        return found

    def screenshot(self, page: str, size: tuple[int, int]) -> bytes:
        path, picture = self.files.write('page.html', page), self.files.path('page.png')
        self.browse('--window-size=%d,%d' % size, f'--screenshot={picture}', f'file://{path}')
        with open(picture, 'rb') as file:
            data = file.read()
        os.remove(picture)
        return data

    def browse(self, *words: str) -> str:
        """The browser's output, of a page that this test made."""
        command = [str(browser()), '--headless', '--no-sandbox', '--disable-gpu',
                   '--hide-scrollbars', f'--user-data-dir={self.files.path("browser")}', *words]
        return subprocess.run(command, stdout=subprocess.PIPE, stderr=subprocess.DEVNULL,
                              timeout=180, check=False).stdout.decode('utf-8', 'replace')


if __name__ == '__main__':
    support.run_cases()
