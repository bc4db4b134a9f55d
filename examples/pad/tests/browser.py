"""A server of its own, and a Chromium with a tab for each person."""
import contextlib
import os
import pathlib
import re
import signal
import socket
import subprocess
import time

from selenium import webdriver
from selenium.webdriver.chrome.options import Options
from selenium.webdriver.chrome.service import Service
from selenium.webdriver.common.by import By

from needs import PAD, browser

SOON, STUCK = 1.0, 20.0  # seconds within which all have to be equal, and after which a test gives up


def free_port():
    with socket.create_server(("127.0.0.1", 0)) as it:
        return it.getsockname()[1]


class Server:
    """The command, as a process."""

    def __init__(self, folder):
        self.folder, self.port, self._process = folder, free_port(), None
        self.start()

    def start(self):
        self._process = subprocess.Popen([PAD / "pad", "--port", str(self.port), "--folder", str(self.folder)], stdout=subprocess.PIPE,
                                         text=True, start_new_session=True)
        said = self._process.stdout.readline()
        self.address = re.match(r"http://127\.0\.0\.1:\d+/", said).group()

    def stop(self, how=signal.SIGTERM):
        """Ends it: by SIGTERM it saves all, by SIGKILL it doesn't."""
        if self._process:
            os.killpg(self._process.pid, how)
            self._process.wait(STUCK)
            self._process.stdout.close()
            self._process = None


@contextlib.contextmanager
def chromium(width=1280, height=800):
    options = Options()
    options.binary_location = browser()
    for it in ("--headless=new", "--no-sandbox", "--disable-gpu", "--disable-dev-shm-usage", "--hide-scrollbars", "--lang=en",
               f"--window-size={width},{height}"):
        options.add_argument(it)
    driver = webdriver.Chrome(service=Service("chromedriver"), options=options)
    driver.set_script_timeout(STUCK)
    try:
        yield driver
    finally:
        driver.quit()


# A script of a tab that makes its line slow: each message waits on its way, so that edits cross.
SLOW = """
const wait = 80, send = WebSocket.prototype.send, listen = WebSocket.prototype.addEventListener;
WebSocket.prototype.send = function (it) { setTimeout(() => send.call(this, it), wait); };
WebSocket.prototype.addEventListener = function (kind, act) {
  listen.call(this, kind, kind === "message" ? (it) => setTimeout(() => act(it), wait) : act);
};
"""


class Tab:
    """One person's tab, in which `script` runs before the page's own ones."""

    def __init__(self, driver, address, script=""):
        self.driver = driver
        driver.switch_to.new_window("tab")
        self._handle = driver.current_window_handle
        driver.execute_cdp_cmd("Page.addScriptToEvaluateOnNewDocument", {"source": script})
        driver.get(address)
        self.until(lambda: self.run("return window.pad?.quiet"))
        self.find("#text").click()  # a tab that never had the focus would get its first keys at the end of the text

    def front(self):
        self.driver.switch_to.window(self._handle)
        return self.driver

    def run(self, script, *args):
        return self.front().execute_script(script, *args)

    def find(self, selector):
        return self.front().find_element(By.CSS_SELECTOR, selector)

    def all(self, selector):
        return self.front().find_elements(By.CSS_SELECTOR, selector)

    def until(self, condition, seconds=STUCK):
        end = time.monotonic() + seconds
        while not condition():
            assert time.monotonic() < end, f"not within {seconds} s; the tab shows {self.text!r}"
            time.sleep(0.01)

    @property
    def number(self):
        return int(self.run("return document.body.className.match(/author-(\\d)/)[1]"))

    @property
    def text(self):
        """What stands in the text area."""
        return self.run("return document.getElementById('text').value")

    @property
    def shown(self):
        """What stands in the mirror, which is what one sees, without the mark at its end."""
        return self.run("return document.querySelector('.mirror').textContent.slice(0, -1)")

    @property
    def quiet(self):
        return self.run("return window.pad.quiet")

    @property
    def colours(self):
        """What stands in the mirror, as pairs of an author's number and a text."""
        spans = "return [...document.querySelectorAll('.mirror span')].map(it => [it.className, it.textContent])"
        return [(int(name.removeprefix("author-")), text) for name, text in self.run(spans)]

    def put_caret(self, place):
        """Puts the caret behind so many UTF-16 units."""
        self.run("const it = document.getElementById('text'); it.focus(); it.setSelectionRange(arguments[0], arguments[0])", place)

    def type(self, keys, at=None):
        if at is not None:
            self.put_caret(at)
        self.find("#text").send_keys(keys)

    def insert(self, text):
        """Inserts a text as an input method does, also of characters that no key has."""
        self.front().execute_cdp_cmd("Input.insertText", {"text": text})

    def away(self, on):
        if self.find("#away").is_selected() != on:
            self.find("#away").click()
        self.until(lambda: self.run("return document.body.classList.contains('is-away')") == on)

    def entries(self):
        """The history, newest first: what each line says."""
        return self.run("return [...document.querySelectorAll('.entry p')].map(it => it.textContent.replaceAll('\\u00a0', ' '))")

    def press(self, said, button):
        """Presses the button of the newest line that says this."""
        lines = [it.strip() for it in self.entries()]
        assert said in lines, f"no line says {said!r}: {lines}"
        turn = self.all(".entry")[lines.index(said)].find_element(By.TAG_NAME, "button")
        assert turn.text == button
        turn.click()

    def slide(self, position):
        self.run("const it = document.getElementById('moment'); it.value = arguments[0]; it.dispatchEvent(new Event('input'))", position)

    def cursors(self):
        """The cursors of others: from the number of a person to the place."""
        return {int(a): int(b) for a, b in self.run(
            "return [...document.querySelectorAll('.cursor')].map(it => [it.dataset.number, it.dataset.place])")}


def equal(tabs, text=None, seconds=SOON):
    """Waits until all tabs show one text and are quiet: so many seconds from now, and no longer."""
    end = time.monotonic() + seconds
    while True:
        texts = [it.text for it in tabs]
        if len(set(texts)) == 1 and text in (None, texts[0]) and all(it.quiet for it in tabs):
            break
        assert time.monotonic() < end, f"not equal within {seconds} s: {texts}, expected {text!r}"
    for it in tabs:
        assert it.shown == texts[0]
    return texts[0]


def kept(folder):
    """The texts of the documents in a folder, once the server has ended."""
    from server.library import cotpad

    texts = []
    for path in sorted(pathlib.Path(folder).glob("*.cotpad")):
        with cotpad.Document(path) as it:
            texts.append(it.text)
    return texts
