"""usage: browser.py SITE PROGRAMS [PICTURE]

Opens the page of the folder SITE in Chromium, does what a user does, and holds what it shows against the programs of the folder PROGRAMS.
An error in the console is a failure. The last line is 'N passed, M failed'. With a third word, a file, it only makes docs' picture of it.
"""
import base64
import os
import re
import subprocess
import sys
import tempfile
import time

from selenium.webdriver.common.keys import Keys

sys.dont_write_bytecode = True
sys.path.append(os.path.join(os.path.dirname(os.path.realpath(__file__)), "..", "measure"))
from chromium import CONTRASTS, Browser, Count, Server  # noqa: E402
from library.names import listed  # noqa: E402

# of each hash that a program prints without a key, the programs
PRINTED = {row["name"]: row["programs"] for row in listed("name") if "hash" in row["programs"] and row["start"] != "key"}
ITEMS = "\n".join(f"item{number:04}" for number in range(4096))


class Test:
    def __init__(self, folder, programs):
        self.folder, self.programs = folder, programs
        self.count = Count()
        self.is_ = self.count.is_
        self.browser = Browser(self.count)
        self.room = tempfile.TemporaryDirectory()

    def file(self, name, text=b"", size=None):
        path = os.path.join(self.room.name, name)
        with open(path, "wb") as file:
            file.write(text)
            if size is not None:
                file.truncate(size)
        return path

    def said_by(self, program, *words, text=b""):
        return subprocess.run([os.path.join(self.programs, program), *words], input=text, capture_output=True, check=True).stdout.decode()

    def hash_by_program(self, name, text):
        """The number that hashof prints, or else hashsum."""
        if "hashof" in PRINTED[name]:
            return self.said_by("hashof", name, text=text).strip()
        return str(int(self.said_by("hashsum", "--untagged", "-a", name, text=text).split()[0], 16))

    def hashes_by_programs(self, names, text):
        return {name: self.hash_by_program(name, text) for name in names}

    def hashes(self):
        return {row[0]: row[2:4] for row in self.browser.rows("#text .rows")}

    # ---- before a script has run

    def without_scripts(self, server):
        browser = self.browser
        browser.command("Emulation.setScriptExecutionDisabled", value=True)
        browser.driver.get(server.address)
        self.is_("the title", "Which hash for my keys?", browser.driver.title)
        wanted = ["Which hash for my keys?", "Your keys", "Avalanche", "Hashes of a text", "Two texts", "What to trust"]
        self.is_("the headings", wanted, [each.text for each in browser.all("h1, h2")])
        self.is_("a word for who has no scripts", True, "need JavaScript" in browser.find("header").text)
        self.is_("what is trusted is readable", True, "nothing is proved of this page" in browser.find("#trust").text)
        self.is_("no field is open", [], [each for each in browser.all("textarea, button") if each.is_displayed() and each.is_enabled()])
        for each in browser.all("a[href^='docs']"):
            path = each.get_attribute("href").split("#")[0].replace(server.address, "")
            self.is_(f"there is {path}", True, os.path.exists(os.path.join(self.folder, path)))
        browser.command("Emulation.setScriptExecutionDisabled", value=False)

    # ---- one text

    def one_text(self):
        browser = self.browser
        text = "zwölf Boxkämpfer 🥊\n"
        browser.fill("#text [name=text]", text)
        self.is_("it says what was hashed", "All hashes of the text, 24 bytes.", browser.says("text", "24 bytes"))
        names = [line.split()[0] for line in self.said_by("spread", "--list").splitlines()[1:]]
        found = self.hashes()
        wanted = self.hashes_by_programs([name for name in names if name in PRINTED], text.encode())
        self.is_("the hashes of a text", wanted, {name: found[name][0] for name in wanted})
        self.is_("the names", [*names, "spooky128", "murmur3_128", "xxh128", "poly61"], list(found))
        self.is_("in hexadecimal", [], [name for name in names if int(found[name][1], 16) != int(found[name][0])])
        browser.click("#text [aria-label^='Copy fnv1a64 in hexadecimal']")
        browser.says("text", "Copied fnv1a64")
        copied = browser.driver.execute_async_script("navigator.clipboard.readText().then(arguments[0], arguments[0])")
        self.is_("a click copies", found["fnv1a64"][1], copied)

    def seeds(self):
        browser = self.browser
        browser.fill("#text [name=text]", "xxhash")
        browser.click("#text summary")
        browser.find("#text [name=seed]").send_keys("20141025")
        browser.find("#text [name=poly61]").send_keys("0x7")
        browser.says("text", "All hashes")
        browser.until("the seed", "return document.querySelector('#text .rows').textContent.includes('b559b98d844e0635')")
        found = self.hashes()
        self.is_("a seed of xxhsum's library", ["b559b98d844e0635", "8e5dc07f2b839bb0"], [found[name][1] for name in ("xxh64", "xxh3")])
        self.is_("poly61 has a key", 16, len(self.hashes()["poly61"][1]))
        browser.fill("#text [name=seed]", "ten")
        self.is_("no seed", "The seed must be a whole number below 2^64, such as 42 or 0x2a, not “ten”.", browser.says("text", "The seed"))
        self.is_("it looks like a fault, and no hash stands below", [True, True],
                 browser.run("const find = (what) => document.querySelector('#text ' + what);"
                             "return [find('.status').classList.contains('fault'), find('.result').hidden]"))
        browser.fill("#text [name=seed]", "")
        browser.fill("#text [name=poly61]", "")
        self.is_("well again", "All hashes of the text, 6 bytes.", browser.says("text", "All hashes"))

    def files(self):
        browser = self.browser
        browser.drop("#text form", "three.bin", "a\nb")
        self.is_("a file that is dropped", "All hashes of three.bin, 3 bytes.", browser.says("text", "three.bin"))
        self.is_("its hash", self.hash_by_program("crc32", b"a\nb"), self.hashes()["crc32"][0])
        long = b"x" * 4_000_000 + bytes(100)
        browser.find("#text [name=file]").send_keys(self.file("long.bin", long))
        self.is_("a file in parts", "All hashes of long.bin, 4,000,100 bytes.", browser.says("text", "All hashes of long.bin"))
        names = ["fnv1a64", "lookup3", "spooky", "fxhash", "fxhash32", "crc32c", "xxh32", "xxh64", "xxh3"]
        self.is_("its hashes", self.hashes_by_programs(names, long), {name: self.hashes()[name][0] for name in names})

    def a_lost_file(self):
        browser = self.browser
        path = self.file("lost.txt", b"lost")
        browser.find("#text [name=file]").send_keys(path)
        browser.says("text", "All hashes of lost.txt")
        os.remove(path)
        browser.fill("#text [name=seed]", "1")
        self.is_("a file that is gone", "The file cannot be read: ", (browser.says("text", "^The file") or "")[:25])
        browser.fill("#text [name=seed]", "")
        browser.fill("#text [name=text]", "")
        browser.says("text", "0 bytes")

    def a_great_file(self):
        browser = self.browser
        browser.find("#text [name=file]").send_keys(self.file("great.bin", size=1 << 30))
        script = ("const area = document.getElementById('text'); const [bar, status] = [...area.querySelectorAll('progress, .status')];"
                  "return !bar.hidden && bar.value > 3e6 && [bar.max, area.getAttribute('aria-busy'), status.textContent]")
        self.is_("it is busy, and says so", [1 << 30, "true", "Hashing great.bin, 1,073,741,824 bytes …"], browser.until("a bar", script))
        before = browser.run("return document.querySelector('#text progress').value")
        browser.until("the bar goes on", "return document.querySelector('#text progress').value > arguments[0]", before)
        self.is_("how far it is", True, bool(re.fullmatch(r"\d+ %", browser.text("#text .far"))))
        browser.fill("#texts [name=one]", "a")
        self.is_("the page works meanwhile", True, bool(browser.says("texts", "differ|begins with")))
        browser.click("#text [name=stop]")
        self.is_("stopped", "Stopped.", browser.says("text", "Stopped"))
        self.is_("no bar is left, and the button is closed", [True, True],
                 browser.run("const find = (what) => document.querySelector('#text ' + what);"
                             "return [find('progress').hidden, find('[name=stop]').disabled]"))
        time.sleep(0.5)
        before = browser.processor_seconds()
        time.sleep(2)
        self.is_("nothing goes on", True, browser.processor_seconds() - before < 0.3)
        browser.fill("#text [name=text]", "after")
        self.is_("a text afterwards", "All hashes of the text, 5 bytes.", browser.says("text", "5 bytes"))

    # ---- keys

    def compare(self, keys, buckets="", names="", times=False):
        browser = self.browser
        for field, value in (("text", keys), ("buckets", buckets), ("names", names)):
            browser.fill(f"#keys [name={field}]", value)
        if browser.find("#keys [name=times]").is_selected() != times:
            browser.click("#keys [name=times]")
        browser.click("#keys [type=submit]")

    def keys(self):
        browser = self.browser
        for keys, buckets, names in ((ITEMS, "", ""), ("a\nb\n\na", "7", "null  elf loselose"), ("Zürich\nOslo\r", "", "all"),
                                     (ITEMS + "\n", "1000", "all")):
            self.compare(keys, buckets, names)
            browser.says("keys", "Done")
            listed = [line.split()[0] for line in self.said_by("spread", "--list").splitlines()[1:]]
            words = [*(["-b", buckets] if buckets else []), *(listed if names == "all" else names.split())]
            # a field of text has newlines alone
            wanted = self.said_by("spread", "--no-times", *words, text=keys.replace("\r", "\n").encode())
            self.is_("the table is that of spread", wanted, browser.text("#keys pre"))
            lines = [line.split() for line in wanted.splitlines()[2:] if not line.startswith("by chance")]
            verdict = [1, 2, 3] if len(words) and buckets else [1, 2, 3, 4, 5, 6]
            rows = [row for row in browser.rows("#keys .rows") if row[0] != "by chance"]
            cells = [[row[0], row[1], row[2], *row[4:7], *(row[8:11] if len(verdict) > 3 else [])] for row in rows]
            self.is_("the rows have its numbers", lines, cells)
        wanted = "No times were measured, so no hash is recommended."
        self.is_("nothing is recommended without times", wanted, browser.text("#keys .advice"))

    def advice(self):
        browser = self.browser
        self.compare(ITEMS, times=True)
        browser.says("keys", "Done: 16 hashes of 4096 different keys")
        lines = browser.text("#keys pre").rstrip().split("\n")
        wanted = self.said_by("spread", "--no-times", text=ITEMS.encode()).rstrip().split("\n")
        found = [line.split()[:-1] for line in lines[2:17]]
        self.is_("with times the numbers are the same", [line.split() for line in wanted[2:17]], found)
        rows = [row for row in browser.rows("#keys .rows") if row[0] != "by chance"]
        random = ("spooky", "xxh64", "murmur3_32", "siphash13", "xxh3")
        even = {row[0]: float(row[12]) for row in rows if row[0] in random and row[2] == "0" and row[7] == row[11] == "✓ as chance"}
        best = re.match(r"Take (\w+) for these keys: the fastest that looks random and spreads them as chance does\.",
                        browser.text("#keys .advice"))[1]
        self.is_("the fastest of the even ones that look random is recommended", min(even.values()), even.get(best))
        self.is_("its row is marked", best, browser.text("#keys tr.best th"))
        self.is_("its histogram is shown", True, browser.text("#keys figcaption").startswith(best + ":"))
        browser.click("#keys tr[data-name=loselose] button")
        self.is_("the histogram of another", ["loselose", "true"], browser.run(
            "const it = document.querySelector('#keys [aria-pressed=true]'); return [it.textContent, it.getAttribute('aria-pressed')]"))
        bars = browser.rows("#keys .chart")
        row = next(row for row in rows if row[0] == "loselose")
        charts = bars[:len(bars) // 2], bars[len(bars) // 2:]
        found = [[int(chart[0][2]), sum(int(bar[2]) for bar in chart)] for chart in charts]
        self.is_("its bars: the empty buckets, and all", [[int(row[5]), 4096], [int(row[9]), 4097]], found)
        browser.click("#keys summary")
        browser.click("#keys [name=copy]")
        browser.says("keys", "Copied the table")
        copied = browser.driver.execute_async_script("navigator.clipboard.readText().then(arguments[0], arguments[0])")
        self.is_("the table is copied", browser.text("#keys pre"), copied)

    def files_of_keys(self):
        browser = self.browser
        browser.fill("#keys [name=names]", "fnv1a64 xxh3")
        browser.click("#keys [name=times]")
        browser.drop("#keys form", "names.txt", "Ada\nBob\nAda\n")
        self.is_("a file of keys that is dropped", "Done: 2 hashes of 2 different keys.", browser.says("keys", "Done"))
        lines = b"".join(b"%d\n" % number for number in range(400_000))
        browser.find("#keys [name=file]").send_keys(self.file("many.txt", lines))
        self.is_("a file in parts", "Done: 2 hashes of 400000 different keys.", browser.says("keys", "Done: 2 hashes of 4"))
        self.is_("its table", self.said_by("spread", "--no-times", "fnv1a64", "xxh3", text=lines), browser.text("#keys pre"))
        browser.fill("#keys [name=names]", "all")
        browser.click("#keys [type=submit]")
        browser.until("it is busy", "return document.querySelector('#keys .status').textContent.startsWith('Hashing 400000')")
        browser.click("#keys [name=stop]")
        self.is_("stopped", "Stopped.", browser.says("keys", "Stopped"))

    def bad_keys(self):
        browser = self.browser
        for keys, buckets, names, wanted in (
                ("", "", "", "There are no keys. Enter one per line."),
                ("a", "ten", "", "The number of buckets must be a whole number from 1 to 4294967295."),
                ("a", "0", "", "The number of buckets must be a whole number from 1 to 4294967295."),
                ("a", "4000000000", "", "The browser has no more memory for this page."),
                ("a", "", "md5 xxh3", "There is no hash “md5”."),
                ("a", "", "--help", "There is no hash “--help”.")):
            self.compare(keys, buckets, names)
            self.is_(f"a sentence for {keys!r}, {buckets!r}, {names!r}", wanted, browser.says("keys", re.escape(wanted[:24])))
        self.compare("a\nb")
        self.is_("well again", "Done: 16 hashes of 2 different keys.", browser.says("keys", "Done"))

    # ---- the others

    def avalanche(self):
        browser = self.browser
        for name, size, least, most in (("fxhash", 8, "0.0", "100.0"), ("crc32", 4, "0.0", "100.0"), ("elf", 16, "0.0", "100.0")):
            browser.run("const form = document.querySelector('#avalanche form'); form.elements.name.value = arguments[0];"
                        "form.elements.bytes.value = arguments[1]", name, size)
            browser.click("#avalanche [type=submit]")
            said = browser.says("avalanche", f"Drawn: {name}, ")
            bits = {"crc32": 32, "elf": 28}.get(name, 64)
            self.is_(f"what is drawn of {name}", True, said.startswith(f"Drawn: {name}, {bits} bits, keys of {size} bytes:"))
            self.is_("the shares", (least, most), re.search(r"for ([\d.]+) % of 4096 keys.* and ([\d.]+) % at the most", said).groups())
            drawn = browser.run("const it = document.querySelector('canvas'); const copy = new OffscreenCanvas(it.width, it.height)"
                                ".getContext('2d', { willReadFrequently: true }); copy.drawImage(it, 0, 0);"
                                "const points = new Uint32Array(copy.getImageData(0, 0, it.width, it.height).data.buffer);"
                                "return [it.width, it.height, new Set(points).size > 1, it.getAttribute('aria-label').slice(0, 16)]")
            self.is_("the picture", [bits, 8 * size, True, "The avalanche of"], drawn)
        browser.run("window.seen = new Set(); new MutationObserver(() => seen.add(document.querySelector('#avalanche progress').value))"
                    ".observe(document.querySelector('#avalanche progress'), { attributes: true })")
        browser.run("document.querySelector('#avalanche form').elements.name.value = 'spooky'")
        browser.click("#avalanche [type=submit]")
        browser.says("avalanche", "Drawn: spooky")
        self.is_("it is drawn step by step", True, browser.run("return seen.size") > 20)
        browser.run("document.querySelector('#avalanche form').elements.name.value = 'null'")
        browser.click("#avalanche [type=submit]")
        self.is_("null has none", "null has no bits that could change.", browser.says("avalanche", "null"))

    def two_texts(self):
        browser = self.browser
        browser.fill("#texts [name=one]", "the quick brown fox")
        browser.fill("#texts [name=other]", "the quick brawn fox")
        wanted = "Both have 19 bytes. They differ in one byte, number 12, counted from 0. 20 hashes are proved to tell them apart."
        self.is_("where they differ", wanted, browser.says("texts", "number 12"))
        rows = {row[0]: row[1:] for row in browser.rows("#texts .rows")}
        self.is_("a law", ["✓ yes", "They have one length and differ only within 3 adjacent bytes.", "different"], rows["fnv1a64"])
        self.is_("no law", ["no law applies", "", "different"], rows["siphash13"])
        self.is_("equal hashes", ["no law applies", "", "✗ equal"], rows["null"])
        self.is_("the places", "The first places, with the bytes of both: 12: 6f 61.", browser.text("#texts .places"))
        self.is_("links to the laws", ["PROVED.md", "CHOOSING.md"], browser.run(
            "return [...document.querySelectorAll('#texts .hint a')].map((link) => link.pathname.split('/').at(-1))"))
        browser.fill("#texts [name=other]", "the quick brown fox")
        self.is_("equal texts", "The texts are equal: 19 bytes. 0 hashes are proved to tell them apart.", browser.says("texts", "equal"))

    # ---- how it looks, and for whom

    def widths_and_colours(self):
        browser, papers = self.browser, []
        for scheme in ("light", "dark"):
            browser.command("Emulation.setEmulatedMedia", features=[{"name": "prefers-color-scheme", "value": scheme}])
            papers.append(browser.run("return getComputedStyle(document.body).backgroundColor"))
            for width in (360, 1280):
                browser.command("Emulation.setDeviceMetricsOverride", width=width, height=740, deviceScaleFactor=1, mobile=False)
                self.is_(f"no sideways scroll at {width}, {scheme}", [True, width], browser.run(
                    "const it = document.documentElement; return [it.scrollWidth === it.clientWidth, innerWidth]"))
                outside = browser.run("return [...document.querySelectorAll('body *')].filter((it) => !it.closest('.scroll, .skip')"
                                      "&& it.getBoundingClientRect().right > innerWidth + 1).map((it) => it.outerHTML.slice(0, 80))")
                self.is_("nothing is cut off", [], outside)
                self.is_(f"letters stand out at {scheme}", [], browser.run(CONTRASTS))
        self.is_("light and dark", 2, len(set(papers)))
        browser.command("Emulation.setDeviceMetricsOverride", width=360, height=740, deviceScaleFactor=1, mobile=False)
        scrolled = browser.run("const it = document.querySelector('#keys .scroll'); it.scrollLeft = 50;"
                               "return [it.scrollWidth > it.clientWidth, it.scrollLeft]")
        self.is_("a table scrolls in its box", [True, 50], scrolled)
        browser.command("Emulation.clearDeviceMetricsOverride")
        browser.command("Emulation.setEmulatedMedia", features=[])

    def press_until(self, script, most=80):
        """Presses the tab key until the script holds of what has the focus. Each on the way shows that it has it."""
        for _ in range(most):
            self.browser.press(Keys.TAB)
            shown = self.browser.run("const it = document.activeElement;"
                                     "return it === document.body || getComputedStyle(it).outlineStyle !== 'none'")
            if not shown:
                self.is_("the focus shows", True, self.browser.run("return document.activeElement.outerHTML.slice(0, 80)"))
            if self.browser.run("const it = document.activeElement; return " + script):
                return
        self.is_("the tab key leads there", script, "no")

    def keyboard(self, server):
        browser = self.browser
        browser.open(server.address)
        browser.press(Keys.TAB)
        self.is_("first the way to the keys", "Skip to the keys", browser.run("return document.activeElement.textContent"))
        self.press_until("it.name === 'text'")
        browser.press("Ada", Keys.ENTER, "Bob", Keys.ENTER, "Eve")
        self.press_until("it.name === 'names'")
        browser.press("fnv1a64 null")
        self.press_until("it.type === 'submit'")
        browser.press(Keys.ENTER)
        self.is_("keys by the keyboard", "Done: 2 hashes of 3 different keys.", browser.says("keys", "Done"))
        self.press_until("it.textContent === 'null'")
        browser.press(Keys.SPACE)
        self.is_("the histogram", "null: how many", browser.text("#keys figcaption")[:14])
        self.press_until("it.name === 'bytes'")
        self.press_until("it.type === 'submit'")
        browser.press(Keys.ENTER)
        browser.says("avalanche", "Drawn: xxh3")
        self.press_until("it.closest('#text') && it.name === 'text'")
        browser.press("abc")
        browser.says("text", "3 bytes")
        self.press_until("it.ariaLabel?.startsWith('Copy crc32 in hexadecimal')")
        browser.press(Keys.ENTER)
        self.is_("copied by the keyboard", "Copied crc32 in hexadecimal.", browser.says("text", "Copied"))

    def documents(self, server):
        """What the page links to reads as UTF-8 with any server."""
        for name, sign in (("PROVED", "X_of_writes"), ("CHOOSING", "37 %"), ("THEOREMS", "↔")):
            self.browser.driver.get(f"{server.address}docs/{name}.md")
            found = self.browser.run("return [document.characterSet, document.body.innerText.includes(arguments[0])]", sign)
            self.is_(f"docs/{name}.md reads well", ["UTF-8", True], found)
        # a text has no icon, of which the browser complains
        self.browser.errors()

    def screen_reader(self):
        browser = self.browser
        browser.command("Accessibility.enable")
        nodes = [node for node in browser.command("Accessibility.getFullAXTree")["nodes"] if not node["ignored"]]
        named = ("button", "textbox", "checkbox", "combobox", "link", "progressbar", "image", "region", "img", "navigation")
        roles = [(node["role"]["value"], node.get("name", {}).get("value", "")) for node in nodes]
        self.is_("each control has a name", [], [role for role in roles if role[0] in named and not role[1].strip()])
        self.is_("a bar that is hidden has one too", [], browser.run(
            "return [...document.querySelectorAll('progress')].filter((it) => !it.ariaLabel).map((it) => it.outerHTML)"))
        self.is_("four areas say what they do", 4, sum(role == "status" for role, _ in roles))
        self.is_("the language", "en", browser.run("return document.documentElement.lang"))
        levels = browser.run("return [...document.querySelectorAll('h1, h2, h3')].map((it) => it.tagName)")
        self.is_("the levels of the headings", ["H1", "H2", "H2", "H2", "H2", "H2"], levels)
        self.is_("one main part", 1, sum(role == "main" for role, _ in roles))
        self.is_("heads of rows and columns", True, browser.run("return [...document.querySelectorAll('th')].every((it) => it.scope)"))
        self.is_("no name stands twice", [], browser.run(
            "const ids = [...document.querySelectorAll('[id]')].map((it) => it.id); return ids.filter((id, at) => ids.indexOf(id) !== at)"))

    # ---- the network

    def without_network(self, server):
        browser = self.browser
        browser.open(server.address)
        others = browser.run("return performance.getEntriesByType('resource').map((it) => it.name)")
        self.is_("all comes from the one folder", [], [name for name in others if not name.startswith((server.address, "data:"))])
        server.stop()
        browser.fill("#text [name=text]", "no network")
        browser.says("text", "10 bytes")
        self.is_("a text without a network", self.hash_by_program("xxh3", b"no network"), self.hashes()["xxh3"][0])
        self.compare("a\nb\nc", "8", "spooky")
        browser.says("keys", "Done")
        wanted = self.said_by("spread", "--no-times", "-b8", "spooky", text=b"a\nb\nc")
        self.is_("keys without a network", wanted, browser.text("#keys pre"))
        browser.click("#avalanche [type=submit]")
        browser.says("avalanche", "Drawn")
        browser.fill("#texts [name=one]", "a")
        browser.says("texts", "begins with")

    def without_module(self):
        """A server that lost the module: a sentence says so, and the fields stay closed. Its console may complain."""
        broken = os.path.join(self.room.name, "broken")
        subprocess.run(["cp", "-r", self.folder, broken], check=True)
        os.remove(os.path.join(broken, "hashers_page.wasm"))
        server = Server(broken)
        self.browser.driver.get(server.address)
        self.browser.until("a sentence", "return !document.getElementById('start').hidden")
        self.is_("the module is not there", True, self.browser.text("#start").startswith("The forms below cannot be used. "))
        closed = self.browser.run("return [...document.querySelectorAll('fieldset')].every((it) => it.disabled)")
        self.is_("the fields stay closed", True, closed)
        server.stop()
        self.browser.errors()

    def all(self):
        server = Server(self.folder)
        self.without_scripts(server)
        self.browser.open(server.address)
        for part in (self.one_text, self.seeds, self.files, self.a_lost_file, self.a_great_file, self.keys, self.advice,
                     self.files_of_keys, self.bad_keys, self.avalanche, self.two_texts, self.widths_and_colours):
            part()
            self.is_(f"the console after {part.__name__}", [], self.browser.errors())
        self.documents(server)
        self.keyboard(server)
        self.screen_reader()
        self.is_("the console after the keyboard", [], self.browser.errors())
        self.without_network(server)
        self.is_("the console without a network", [], self.browser.errors())
        self.without_module()

    def picture(self, path):
        """What it shows of the example keys, for docs."""
        browser = self.browser
        server = Server(self.folder)
        browser.command("Emulation.setDeviceMetricsOverride", width=1180, height=900, deviceScaleFactor=1, mobile=False)
        browser.open(server.address)
        browser.fill("#keys [name=names]", "fnv1a64 djb2 loselose lookup3 spooky fxhash xxh64 murmur3_32 siphash13 xxh3")
        browser.click("#keys [name=example]")
        browser.says("keys", "Done")
        top, end = browser.run("const box = (it) => document.querySelector('#keys ' + it).getBoundingClientRect();"
                               "return [scrollY + box('.status').top, scrollY + box('.histogram').bottom]")
        clip = {"x": 0, "y": top - 15, "width": 1180, "height": end - top + 15, "scale": 0.75}
        shot = browser.command("Page.captureScreenshot", captureBeyondViewport=True, clip=clip)
        with open(path, "wb") as file:
            file.write(base64.b64decode(shot["data"]))

    def end(self):
        self.browser.driver.quit()
        self.room.cleanup()


def main():
    folder, programs = map(os.path.abspath, sys.argv[1:3])
    test = Test(folder, programs)
    try:
        test.picture(sys.argv[3]) if sys.argv[3:] else test.all()
    finally:
        test.end()
    print("%d passed, %d failed" % (test.count.passed, test.count.failed))
    return 1 if test.count.failed else 0


if __name__ == "__main__":
    sys.exit(main())
