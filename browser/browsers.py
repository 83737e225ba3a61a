"""The browsers: each is started headless with a profile of its own, opens page.html from a server on this machine
alone, and folds the calls that the server hands out."""

import http.server
import json
import os
import queue
import shutil
import signal
import subprocess
import tempfile
import threading
import time
from typing import Callable, NamedTuple

import wgsl

HERE = os.path.dirname(os.path.abspath(__file__))
SECONDS_TO_START = 120
SECONDS_TO_ANSWER = 600
ENDS_THE_BROWSER = 'it ends the browser'

CHROMIUM_WORDS = [
    '--headless=new', '--no-sandbox', '--no-first-run', '--disable-background-networking', '--disable-component-update',
    '--enable-unsafe-webgpu', '--use-webgpu-adapter=swiftshader', '--use-angle=swiftshader',
]  # fmt: skip

FIREFOX_PREFERENCES = {
    'dom.webgpu.enabled': True,
    'gfx.webgpu.ignore-blocklist': True,
    'browser.shell.checkDefaultBrowser': False,
    'browser.aboutwelcome.enabled': False,
    'datareporting.policy.dataSubmissionEnabled': False,
    'app.normandy.enabled': False,
}


class BrowserFailed(Exception):
    """With the reason."""


def chromium_words(profile):
    return ['chromium', *CHROMIUM_WORDS, f'--user-data-dir={profile}']


def firefox_words(profile):
    with open(os.path.join(profile, 'user.js'), 'w') as preferences:
        for name, value in FIREFOX_PREFERENCES.items():
            preferences.write(f'user_pref({json.dumps(name)}, {json.dumps(value)});\n')
    return ['firefox-esr', '--headless', '--no-remote', '--profile', profile]


class Kind(NamedTuple):
    """How a browser is started with a profile, and how floats are spelled for it."""

    words: Callable
    spelled_float: Callable


BROWSERS = {
    'chromium': Kind(chromium_words, wgsl.float_by_bits),
    'firefox-esr': Kind(firefox_words, wgsl.float_by_digits),
}


def version_of(name):
    said = subprocess.run([name, '--version'], capture_output=True, text=True).stdout.split()
    numbers = [word for word in said if word[:1].isdigit()]
    if not numbers:
        raise BrowserFailed(f'{name} --version tells no version')
    return f'{said[said.index(numbers[0]) - 1]} {numbers[0]}'


class Handler(http.server.BaseHTTPRequestHandler):
    """Serves the page and hands calls and news to and fro; the server's `calls` and `news` are queues."""

    def do_GET(self):
        if self.path == '/':
            with open(os.path.join(HERE, 'page.html'), 'rb') as page:
                self.answer('text/html', page.read())
        elif self.path == '/calls':
            self.answer('application/json', json.dumps(self.server.calls.get()).encode())
        else:
            self.send_error(404)

    def do_POST(self):
        self.server.news.put(json.loads(self.rfile.read(int(self.headers['Content-Length']))))
        self.answer('text/plain', b'')

    def answer(self, content_type, body):
        self.send_response(200)
        self.send_header('Content-Type', content_type)
        self.send_header('Content-Length', str(len(body)))
        self.end_headers()
        self.wfile.write(body)

    def log_message(self, *_):
        pass


class Browser:
    """A running browser. `f16` tells whether its device takes half floats."""

    def __init__(self, name):
        kind = BROWSERS[name]
        self.version = version_of(name)
        self.spelled_float = kind.spelled_float
        self.home = tempfile.mkdtemp(prefix=f'{name}-')
        self.server = http.server.ThreadingHTTPServer(('127.0.0.1', 0), Handler)
        self.server.daemon_threads = True
        self.server.calls, self.server.news = queue.Queue(), queue.Queue()
        threading.Thread(target=self.server.serve_forever, daemon=True).start()
        self.process, self.words_for = None, kind.words
        try:
            self.start()
        except BaseException:
            self.close()
            raise

    def start(self):
        profile = tempfile.mkdtemp(prefix='profile-', dir=self.home)
        words = [*self.words_for(profile), f'http://127.0.0.1:{self.server.server_port}/']
        with open(os.path.join(self.home, 'log'), 'wb') as log:
            self.process = subprocess.Popen(
                words, stdin=subprocess.DEVNULL, stdout=log, stderr=log, start_new_session=True,
                env={**os.environ, 'HOME': self.home})  # fmt: skip
        self.f16 = self.told(SECONDS_TO_START)['f16']

    def start_again(self):
        self.stop()
        self.server.calls, self.server.news = queue.Queue(), queue.Queue()
        self.start()

    def told(self, seconds):
        """The page's next news."""
        end = time.monotonic() + seconds
        while time.monotonic() < end:
            try:
                news = self.server.news.get(timeout=1)
            except queue.Empty:
                if self.process.poll() is not None:
                    status = self.process.returncode
                    raise BrowserFailed(f'it ended with status {status}: {self.last_words()}') from None
                continue
            if 'failed' in news:
                raise BrowserFailed(news['failed'])
            return news
        raise BrowserFailed(f'it said nothing for {seconds} seconds: {self.last_words()}')

    def last_words(self):
        with open(os.path.join(self.home, 'log'), errors='replace') as log:
            return ' '.join(log.read().split())[-300:]

    def fold(self, calls):
        """What the page tells of each call. One that ends the browser is found by halving, and the browser started again."""
        self.server.calls.put([self.to_send(call) for call in calls])
        try:
            return self.told(SECONDS_TO_ANSWER)['answers']
        except BrowserFailed:
            if self.process.poll() is None:
                raise
        self.start_again()
        if len(calls) == 1:
            return [{'refused': ENDS_THE_BROWSER}]
        half = len(calls) // 2
        return self.fold(calls[:half]) + self.fold(calls[half:])

    def to_send(self, call):
        constant = f'const folded = {wgsl.spelled(call, self.spelled_float)};'
        return {'constant': constant, 'words': wgsl.words_of(call, 'folded')}

    def stop(self):
        if self.process is not None:
            try:
                os.killpg(self.process.pid, signal.SIGKILL)
            except ProcessLookupError:
                pass
            self.process.wait()

    def close(self):
        self.stop()
        self.server.shutdown()
        self.server.server_close()
        shutil.rmtree(self.home, ignore_errors=True)
