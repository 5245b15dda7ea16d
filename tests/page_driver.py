"""The page of page/out in a browser, as its user sees it: files are opened, buttons are pressed, and texts are
read. It counts the checks of tests/page_views.py too."""
import subprocess
import time
from pathlib import Path

ROOT = Path(__file__).resolve().parent.parent
PROGRAM, PAGE, EXAMPLES, CORPUS = (
    ROOT / "gamefile",
    ROOT / "page" / "out",
    ROOT / "examples",
    ROOT / "tests" / "corpus",
)
# Seconds until something has to be seen.
PATIENCE = 60

counts = {"passed": 0, "failed": 0}


def judge(name, holds, *seen):
    """Counts a check, and shows what was seen if it fails."""
    counts["passed" if holds else "failed"] += 1
    if not holds:
        print(f"FAILED {name}:", *(str(it)[:400] for it in seen))


def program(*words):
    """Gives what the program writes, to standard output or, of a refusal, to standard error."""
    ran = subprocess.run([PROGRAM, *words], stdin=subprocess.DEVNULL, capture_output=True)
    return ran.stdout or ran.stderr


class View:
    """The page in a browser."""

    def __init__(self, driver, room):
        self.driver, self.room = driver, room
        self.start()

    def start(self, fragment=""):
        self.driver.get("about:blank")
        self.driver.get((PAGE / "index.html").as_uri() + fragment)
        self.until(lambda: self.do("return document.body.dataset.ready") and self.is_calm())

    def do(self, script, *given):
        return self.driver.execute_script(script, *given)

    def all(self, selector):
        return self.driver.find_elements("css selector", selector)

    def one(self, selector):
        return self.driver.find_element("css selector", selector)

    def text(self, selector):
        return self.do("return document.querySelector(arguments[0])?.textContent ?? null", selector)

    def texts(self, selector):
        return self.do("return [...document.querySelectorAll(arguments[0])].map(it => it.textContent)", selector)

    def until(self, holds):
        end = time.monotonic() + PATIENCE
        while not holds():
            if time.monotonic() > end:
                raise TimeoutError(
                    f"not seen; the page says {self.text('#verdict')!r}, {self.text('#view')!r:.300}"
                )
            time.sleep(0.02)

    def is_calm(self):
        return self.text("#verdict") != "…" and not self.all("#view[aria-busy]")

    def calm(self):
        self.until(self.is_calm)

    def open(self, *files):
        """Opens files by the field, as a user does; the first becomes the current one."""
        before = self.do("return document.querySelectorAll('#files li').length")
        self.one("#open").send_keys("\n".join(str(it) for it in files))
        self.until(lambda: self.text("#name").startswith(Path(files[0]).stem) and not self.all("#files .waiting"))
        self.calm()
        return before

    def button(self, words, within=""):
        found = [
            it
            for it in self.all(f"{within} button")
            if words in (" ".join(it.text.split()), it.get_attribute("aria-label"))
        ]
        assert found, f"no button {words!r} among {[it.text for it in self.all('button')]}"
        return found[0]

    def press(self, words, within=""):
        self.steadily(lambda: self.button(words, within).click())
        self.calm()

    def steadily(self, act):
        """Acts once more if the page has just made a part anew."""
        from selenium.common.exceptions import StaleElementReferenceException

        for _ in range(20):
            try:
                return act()
            except StaleElementReferenceException:
                time.sleep(0.05)
        return act()

    def tab(self, words):
        self.press(words, "#tabs")

    def choose(self, selector, words):
        from selenium.webdriver.support.ui import Select

        self.steadily(lambda: Select(self.one(selector)).select_by_visible_text(words))
        self.until(lambda: self.is_calm() and not self.all("#files .waiting"))
        time.sleep(0.05)
        self.calm()

    def keys(self, *keys):
        from selenium.webdriver import ActionChains

        ActionChains(self.driver).send_keys(*keys).perform()

    def with_control(self, key):
        self.held("CONTROL", key)

    def with_shift(self, key):
        self.held("SHIFT", key)

    def held(self, name, key):
        from selenium.webdriver import ActionChains
        from selenium.webdriver.common.keys import Keys

        ActionChains(self.driver).key_down(getattr(Keys, name)).send_keys(key).key_up(getattr(Keys, name)).perform()

    def saved(self, name):
        """Gives the bytes of a file that was saved, and removes it."""
        path = self.room / name
        self.until(path.exists)
        self.until(lambda: not list(self.room.glob("*.crdownload")))
        data = path.read_bytes()
        path.unlink()
        return data

    def command(self, name, **words):
        return self.driver.execute_cdp_cmd(name, words)

    def set_size(self, width, height=900):
        self.command(
            "Emulation.setDeviceMetricsOverride", width=width, height=height, deviceScaleFactor=1, mobile=False
        )

    def set_scheme(self, scheme):
        self.command("Emulation.setEmulatedMedia", features=[{"name": "prefers-color-scheme", "value": scheme}])

    def drop(self, *files):
        """Drops files from outside on the page."""
        data = {"items": [], "files": [str(it) for it in files], "dragOperationsMask": 1}
        for kind in "dragEnter", "dragOver", "drop":
            self.command("Input.dispatchDragEvent", type=kind, x=600, y=400, data=data)

    def made(self, name, data):
        path = self.room / name
        path.write_bytes(data if isinstance(data, bytes) else data.encode())
        return path
