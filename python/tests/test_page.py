#!/usr/bin/env python3
"""Tests the page of `serve --page`, by HTTP and in Chromium if it is installed.

The program is the built one, or the one that the variable BITEMPORAL names.
"""
import http.client
import json
import os
import pathlib
import signal
import subprocess
import sys
import tempfile
import threading
import unittest
from typing import Any, Dict, Optional, Tuple

import browser
from folders import ROOT
import program
import support

from bitemporal_server.engine import Engine
from bitemporal_server.page import web
from bitemporal_server.page.answers import Asker, witness

SCRIPT = support.create_table('PAY', 'ENO INTEGER, NAME VARCHAR(20), CENTS INTEGER', 'ENO',
                              'EP') + """;
AT TIMESTAMP '2024-01-10 09:00:00';
INSERT INTO PAY VALUES (101, '<b>Ann</b>', 310000, DATE '2024-01-01', DATE '9999-12-31'),
 (102, 'Max', 298050, DATE '2024-01-01', DATE '2024-07-01');
AT TIMESTAMP '2024-06-20 09:00:00';
UPDATE PAY FOR PORTION OF EP FROM DATE '2024-07-01' TO DATE '9999-12-31' SET CENTS = 325000
 WHERE ENO = 101;
"""
ANSWER = 'VALIDTIME SELECT DISTINCT ENO, CENTS FROM PAY;'


class Page:
    """The page over a new store."""

    def __init__(self, may_write: bool = False) -> None:
        self.folder = tempfile.TemporaryDirectory()
        store = os.path.join(self.folder.name, 'pay.store')
        subprocess.run(['bitemporal_file', store], executable=program.PROGRAM, check=True,
                       input=SCRIPT.encode(), stdout=subprocess.DEVNULL)
        self.engine = Engine(program.PROGRAM, store, 60, 1_000_000, '--audit', '--now')
        self.visitor = web.Visitor()
        self.web = web.served(Asker(self.engine, may_write, self.visitor), 0)

    def close(self) -> None:
        self.web.shutdown()
        self.web.server_close()
        self.engine.close()
        self.visitor.connection.close()
        self.visitor.other.close()
        self.folder.cleanup()

    def request(self, method: str, path: str, body: bytes = b'', **headers: str) -> Tuple[int, Any]:
        """The status and the text of a response."""
        connection = http.client.HTTPConnection('127.0.0.1', self.web.server_port, timeout=30)
        given = {'Content-Type': 'application/json', **headers}
        connection.request(method, path, body, given)
        response = connection.getresponse()
        text = response.read()
        connection.close()
        return response.status, text

    def ask(self, path: str, **given: Optional[str]) -> Dict[str, Any]:
        """The answer to a question."""
        status, text = self.request('POST', f'{path}?token={self.web.token}',
                                    json.dumps(given).encode())
        assert status == 200, (status, text)
        found: Dict[str, Any] = json.loads(text)
        return found


class Requests(unittest.TestCase):
    """Requests that the page may make, and who may ask it."""

    def setUp(self) -> None:
        self.page = Page()
        self.addCleanup(self.page.close)

    def test_answers(self) -> None:
        [answer] = self.page.ask('/ask', text=ANSWER)['results']
        self.assertEqual(answer['columns'], ['ENO', 'CENTS', 'valid_from', 'valid_to'])
        self.assertEqual(answer['rows'][0], ['101', '310000', '2024-01-01', '2024-07-01'])
        self.assertEqual(answer['witnesses'][0], 'on 2024-01-01 yes, on 2023-12-31 not yet')
        self.assertEqual(answer['audit'][0], 'agrees')
        self.assertEqual(witness('0001-01-01', 'none'), 'on 0001-01-01 yes, and on no day before')

    def test_refusals(self) -> None:
        text = 'SELECT * FROM PAY; VALIDTIME SELECT DISTINCT WAGE FROM PAY; SELECT * FROM PAY'
        [_, refused] = self.page.ask('/ask', text=text)['results']
        self.assertEqual((refused['kind'], refused['message']), ('refused', '24 UnknownColumn'))
        self.assertEqual(text[refused['at']:][:4], 'WAGE')
        for statement in ('DELETE FROM PAY', "AT TIMESTAMP '2030-01-01 00:00:00'",
                          SCRIPT.partition(';')[0].replace('PAY', 'PAYS')):
            [refused] = self.page.ask('/ask', text=statement)['results']
            self.assertEqual(refused['kind'], 'refused', statement)
        [answer] = self.page.ask('/ask', text='SELECT * FROM PAY')['results']
        self.assertEqual(len(answer['rows']), 3)

    def test_beliefs(self) -> None:
        tables = self.page.ask('/tables')
        self.assertEqual((tables['clock'], tables['tables'][0]['name']),
                         ('2024-06-20 09:00:00', 'PAY'))
        found = self.page.ask('/range', table='PAY')
        self.assertEqual(found['days'], ['2024-01-01', '2024-07-01'])
        self.assertEqual(found['moments'], ['2024-01-10 09:00:00', '2024-06-20 09:00:00'])
        state = self.page.ask('/state', table='PAY', day='2024-08-01', moment='2024-02-01 00:00:00')
        self.assertEqual(state['rows'],
                         [['101', '<b>Ann</b>', '310000', '2024-01-01', '9999-12-31']])
        changes = self.page.ask('/changes', table='PAY', first='2024-01-10 09:00:00',
                                second='2024-06-20 09:00:00')
        self.assertEqual([row[2:] for row in changes['gone']],
                         [['310000', '2024-01-01', '9999-12-31']])
        self.assertEqual(sorted(row[2:] for row in changes['new']),
                         [['310000', '2024-01-01', '2024-07-01'],
                          ['325000', '2024-07-01', '9999-12-31']])

    def test_killed_program(self) -> None:
        """If the program dies in a change, the page says that it is not known whether the change
        is done, and continues."""
        page = Page(True)
        self.addCleanup(page.close)
        page.engine.session.process.send_signal(signal.SIGSTOP)
        threading.Timer(0.3, page.engine.session.process.kill).start()
        [refused] = page.ask('/ask', text='DELETE FROM PAY WHERE ENO = 101')['results']
        self.assertEqual(refused['message'], 'the engine ended within the change')
        [answer] = page.ask('/ask', text='SELECT * FROM PAY WHERE ENO = 102')['results']
        self.assertEqual(len(answer['rows']), 1)

    def test_who_may_ask(self) -> None:
        token, port = self.page.web.token, self.page.web.server_port
        for path in (f'/?token={token}', '/page.js', '/page.css'):
            self.assertEqual(self.page.request('GET', path)[0], 200)
        requests: 'list[tuple[int, str, str, dict[str, str]]]' = [
            (403, 'GET', '/', {}), (403, 'GET', '/?token=x', {}), (403, 'POST', '/tables', {}),
            (403, 'GET', '/', {'Cookie': f'bitemporal{port}={token}'}),
            (403, 'POST', '/page.js', {}), (403, 'GET', '/page.js', {'Host': 'example.org'}),
            (403, 'GET', f'/?token={token}', {'Host': 'example.org'}),
            (403, 'POST', f'/tables?token={token}', {'Origin': 'http://example.org'}),
            (404, 'GET', f'/etc/passwd?token={token}', {}),
            (404, 'GET', f'/../answers.py?token={token}', {}),
            (400, 'POST', f'/tables?token={token}', {'Content-Type': 'text/plain'}),
            (400, 'POST', f'/nothing?token={token}', {}),
            (400, 'POST', f'/ask?token={token}', {'Content-Length': str(2 ** 30)}),
            (501, 'PUT', f'/ask?token={token}', {})]
        for status, method, path, headers in requests:
            with self.subTest(method=method, path=path, headers=headers):
                self.assertEqual(self.page.request(method, path, b'{}', **headers)[0], status)
        for path, given in (
                ('state', {'table': 'PAY', 'day': "2024-01-01' OR"}), ('state', {'table': 'PAYS'}),
                ('state', {}), ('state', []), ('changes', {'table': 'PAY', 'first': None}),
                ('changes', {'table': 'PAY', 'first': "2024-01-01'; SELECT", 'second': '1'})):
            status, _ = self.page.request('POST', f'/{path}?token={token}',
                                          json.dumps(given).encode())
            self.assertEqual(status, 400, given)

    def test_ended_program(self) -> None:
        """If the program has ended for good, each question is answered so."""
        self.page.engine.is_broken = True
        path = f'?token={self.page.web.token}'
        for question in ('tables', 'range', 'state'):
            status, text = self.page.request('POST', f'/{question}{path}', b'{"table": "PAY"}')
            self.assertEqual((status, b'has ended' in text), (503, True), text)
        [refused] = self.page.ask('/ask', text='SELECT * FROM PAY')['results']
        self.assertEqual(refused['kind'], 'refused')


@unittest.skipUnless(browser.installed(), 'apt-get install chromium-headless-shell')
class InBrowser(unittest.TestCase):
    """The page as a person uses it."""

    def setUp(self) -> None:
        self.page = Page(True)
        self.addCleanup(self.page.close)
        self.browser = browser.Browser()
        self.addCleanup(self.browser.close)
        self.browser.resize(1000, 1200)
        self.browser.open(self.page.web.address)
        self.browser.until("document.querySelector('#state table') !== null")

    def text(self, selector: str) -> str:
        found: str = self.browser.value(f'document.querySelector({json.dumps(selector)}).innerText')
        return found

    def ask(self, text: str) -> None:
        """Asks a question by the keyboard alone."""
        self.browser.value("document.querySelector('#results').replaceChildren();"
                           " document.querySelector('#text').value = '';"
                           " document.querySelector('#text').focus()")
        self.browser.type(text)
        self.browser.key('Enter', 13, 2)
        self.browser.until("document.querySelector('#results').children.length > 0")

    def test_questions(self) -> None:
        self.ask(ANSWER)
        self.assertIn('on 2024-07-01 yes, on 2024-06-30 not yet', self.text('#results'))
        self.assertIn('The audit agrees', self.text('#results'))
        self.assertEqual(self.browser.value("document.querySelectorAll('#results svg').length"), 3)
        self.ask('SELECT * FROM PAY WHERE ENO = 101')
        self.assertIn('<b>Ann</b>', self.text('#results'))
        self.assertEqual(self.browser.value("document.querySelectorAll('#results b').length"), 0)
        self.ask('VALIDTIME SELECT DISTINCT WAGE FROM PAY')
        self.assertEqual(self.text('#results mark'), 'WAGE')
        self.assertIn('What to do', self.text('#results'))
        self.ask("INSERT INTO PAY VALUES (103, 'Eve', 1, DATE '2025-01-01', DATE '2026-01-01')")
        self.assertIn('done: insert, 1', self.text('#results'))
        self.browser.until("document.querySelector('#day').max === '3'")
        self.assertEqual(self.browser.errors, [])

    def test_examples(self) -> None:
        self.browser.value("(() => { const e = document.querySelector('#examples');"
                           " e.selectedIndex = 1; e.dispatchEvent(new Event('change')); })()")
        self.browser.click('button[type=submit]')
        self.browser.until("document.querySelector('#results table') !== null")
        self.assertIn('The audit agrees', self.text('#results'))

    def test_sliders(self) -> None:
        self.assertIn('recorded by 2024-06-20 09:00:00: 1 row', self.text('#state'))
        self.browser.value("document.querySelector('#moment').focus()")
        self.browser.key('ArrowLeft', 37)
        self.browser.until("document.querySelector('#state').innerText.includes("
                           "'2024-01-10 09:00:00')")
        self.assertIn('310000', self.text('#state'))
        self.browser.value("document.querySelector('#day').focus()")
        self.browser.key('ArrowLeft', 37)
        self.browser.until("document.querySelector('#state').innerText.includes('2 rows')")
        self.browser.value("document.querySelector('details').open = true")
        self.browser.click('#comparison button')
        self.browser.until("document.querySelectorAll('#changes table').length === 2")
        self.assertIn('newly recorded: 2 rows', self.text('#changes'))

    def test_csv(self) -> None:
        self.ask('SELECT * FROM PAY')
        found = self.browser.value("csvOf(['A', 'B'], [['1', 'x,\"y'], ['2', 'a\\nb']])")
        self.assertEqual(found, 'A,B\r\n1,"x,""y"\r\n2,"a\nb"\r\n')
        self.browser.click('#results button')

    def test_small_screens(self) -> None:
        """In 360 pixels nothing is wider than the page, and what can be used has a name."""
        self.browser.resize(360, 740)
        self.ask(ANSWER)
        self.assertTrue(self.browser.value('document.documentElement.scrollWidth'
                                           ' <= document.documentElement.clientWidth'))
        unnamed = self.browser.value(
            "[...document.querySelectorAll('input, select, textarea')].filter(e =>"
            " !e.labels.length).map(e => e.id)")
        self.assertEqual(unnamed, [])
        heads = self.browser.value("[...document.querySelectorAll('th')].every(e => e.scope)")
        self.assertTrue(heads)
        folder = os.environ.get('PICTURES')
        if folder:
            self.browser.screenshot(f'{folder}/page-small.png')
            self.browser.resize(1000, 960)
            self.browser.screenshot(f'{folder}/page.png')


class Command(unittest.TestCase):
    """The command."""

    def test_command(self) -> None:
        with tempfile.TemporaryDirectory() as folder:
            words = [sys.executable, str(ROOT / 'tools/serve'), f'{folder}/a.store',
                     '--page', '--write']
            with subprocess.Popen(words, stderr=subprocess.PIPE) as process:
                assert process.stderr is not None
                address = process.stderr.readline().decode().split()[-1]
                connection = http.client.HTTPConnection(address.split('/')[2], timeout=30)
                connection.request('GET', '/' + address.split('/')[3])
                response = connection.getresponse()
                self.assertEqual(response.status, 200)
                self.assertIn("default-src 'none'", response.headers['Content-Security-Policy'])
                self.assertIn(b'<h1>', response.read())
                connection.close()
                process.send_signal(signal.SIGTERM)
                self.assertEqual(process.wait(30), 0)
            self.assertTrue(pathlib.Path(folder, 'a.store').exists())


if __name__ == '__main__':
    support.run_cases()
