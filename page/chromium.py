"""Chromium by its driver, a server of files, and counts, for browser.py."""
import contextlib
import functools
import http.server
import os
import shutil
import threading
import time

from selenium import webdriver
from selenium.webdriver.chrome.options import Options
from selenium.webdriver.chrome.service import Service
from selenium.webdriver.common.by import By

SECONDS = 90

# The elements with a text of their own whose letters have a contrast below 4.5 against what is behind them, as WCAG 2 counts it; not of
# closed fields, nor of the picture's legend.
CONTRASTS = """
const numbers = (colour) => colour.match(/[\\d.]+/g).map(Number);
const light = (colour) => numbers(colour).slice(0, 3).map((part) => part / 255)
    .map((part) => part <= 0.04045 ? part / 12.92 : ((part + 0.055) / 1.055) ** 2.4)
    .reduce((sum, part, at) => sum + part * [0.2126, 0.7152, 0.0722][at], 0);
function behind(element) {
    for (let it = element; it; it = it.parentElement) {
        const colour = getComputedStyle(it).backgroundColor;
        if ((numbers(colour)[3] ?? 1) === 1) return colour;
    }
}
const told = [...document.querySelectorAll('body *')].filter((it) => it.checkVisibility() && !it.disabled
    && [...it.childNodes].some((node) => node.nodeType === 3 && node.textContent.trim()));
return told.filter((it) => {
    const [a, b] = [getComputedStyle(it).color, behind(it)].map(light).sort((x, y) => y - x);
    return (a + 0.05) / (b + 0.05) < 4.5;
}).map((it) => it.outerHTML.slice(0, 80));
"""


class Quiet(http.server.SimpleHTTPRequestHandler):
    def log_message(self, *_):
        pass


class Server:
    def __init__(self, folder):
        self.server = http.server.ThreadingHTTPServer(("127.0.0.1", 0), functools.partial(Quiet, directory=folder))
        self.address = "http://127.0.0.1:%d/" % self.server.server_address[1]
        threading.Thread(target=self.server.serve_forever, daemon=True).start()

    def stop(self):
        self.server.shutdown()
        self.server.server_close()


class Count:
    def __init__(self):
        self.passed = self.failed = 0

    def is_(self, what, wanted, found):
        self.passed, self.failed = self.passed + (wanted == found), self.failed + (wanted != found)
        if wanted != found:
            print(f"FAILED: {what}\n-- wanted\n{wanted}\n-- found\n{found}")


class Browser:
    """Chromium by its driver, and what a user does in it."""

    def __init__(self, count):
        options = Options()
        for word in ("--headless=new", "--no-sandbox", "--disable-dev-shm-usage", "--disable-gpu", "--window-size=1280,900"):
            options.add_argument(word)
        options.set_capability("goog:loggingPrefs", {"browser": "ALL"})
        self.driver = webdriver.Chrome(service=Service(shutil.which("chromedriver")), options=options)
        self.driver.set_script_timeout(SECONDS)
        self.count = count
        self.command("Browser.grantPermissions", permissions=["clipboardReadWrite", "clipboardSanitizedWrite"])

    def command(self, name, **words):
        return self.driver.execute_cdp_cmd(name, words)

    def run(self, script, *arguments):
        return self.driver.execute_script(script, *arguments)

    def find(self, where):
        return self.driver.find_element(By.CSS_SELECTOR, where)

    def all(self, where):
        return self.driver.find_elements(By.CSS_SELECTOR, where)

    def text(self, where):
        return self.run("return document.querySelector(arguments[0]).textContent", where)

    def click(self, where):
        self.run("arguments[0].scrollIntoView({ block: 'center' })", self.find(where))
        self.find(where).click()

    def fill(self, where, text):
        """Puts a text into a field at once, as a paste does."""
        self.run("const [field, text] = arguments; field.value = text; field.dispatchEvent(new Event('input', { bubbles: true }))",
                 self.find(where), text)

    def until(self, what, script, *arguments):
        """Waits until the script returns something, and returns that; else what it is counts as a failure."""
        end = time.time() + SECONDS
        while time.time() < end:
            found = self.run(script, *arguments)
            if found:
                return found
            time.sleep(0.02)
        self.count.is_(what, "in time", "not in %d seconds: %s" % (SECONDS, arguments))
        return None

    def says(self, area, pattern):
        """Waits until the status of an area matches, and the area is not busy."""
        script = ("const area = document.getElementById(arguments[0]); const said = area.querySelector('.status').textContent;"
                  "return area.getAttribute('aria-busy') !== 'true' && new RegExp(arguments[1]).test(said) && said")
        return self.until(f"{area} says {pattern}", script, area, pattern)

    def open(self, address):
        self.driver.get(address)
        self.until("the page is ready", "return !document.querySelector('#text .result').hidden")

    def rows(self, where):
        return self.run("return [...document.querySelectorAll(arguments[0])].map((row) => [...row.cells].map((cell) => cell.textContent))",
                        where + " tbody tr")

    def drop(self, where, name, text):
        self.run("const [form, name, text] = arguments; const dataTransfer = new DataTransfer();"
                 "dataTransfer.items.add(new File([text], name)); for (const kind of ['dragover', 'drop'])"
                 "form.dispatchEvent(new DragEvent(kind, { dataTransfer, bubbles: true, cancelable: true }))", self.find(where), name, text)

    def press(self, *keys):
        webdriver.ActionChains(self.driver).send_keys(*keys).perform()

    def processor_seconds(self):
        """How many seconds of a processor the browser and its processes took."""
        fields = {}
        for each in filter(str.isdigit, os.listdir("/proc")):
            with contextlib.suppress(OSError):
                with open(f"/proc/{each}/stat", encoding="utf-8", errors="replace") as file:
                    fields[int(each)] = file.read().rpartition(")")[2].split()
        family = {self.driver.service.process.pid}
        while more := {each for each, words in fields.items() if int(words[1]) in family} - family:
            family |= more
        ticks = sum(int(fields[each][11]) + int(fields[each][12]) for each in family if each in fields)
        return ticks / os.sysconf("SC_CLK_TCK")

    def errors(self):
        return [line["message"] for line in self.driver.get_log("browser") if line["level"] in ("SEVERE", "WARNING")]
