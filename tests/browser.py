"""A browser for the tests of the page: headless Chromium, by Debian's packages chromium, chromium-driver
and python3-selenium. It reaches no host but this one."""
import contextlib
import os
import shutil
import sys
import tempfile

DEBIAN = "/usr/bin/python3"


def missing():
    """Gives what is not there of the three, or None. Debian's selenium belongs to Debian's Python, which
    then runs this script in the place of another."""
    for name in "chromium", "chromedriver":
        if shutil.which(name) is None:
            return f"there is no {name}"
    try:
        import selenium
    except ImportError:
        if sys.executable != DEBIAN and os.path.exists(DEBIAN):
            os.execv(DEBIAN, [DEBIAN, *sys.argv])
        return "there is no python3-selenium"
    return None


@contextlib.contextmanager
def opened(width=1400, height=900, downloads=None):
    """Opens a browser, whose downloads go to a folder, and ends it."""
    from selenium import webdriver
    from selenium.webdriver.chrome.service import Service

    with tempfile.TemporaryDirectory() as room:
        options = webdriver.ChromeOptions()
        options.binary_location = shutil.which("chromium")
        for it in (
            "--headless=new",
            "--no-sandbox",
            "--disable-gpu",
            "--disable-dev-shm-usage",
            "--disable-background-networking",
            "--no-first-run",
            "--host-resolver-rules=MAP * ~NOTFOUND, EXCLUDE localhost",
            f"--window-size={width},{height}",
            f"--user-data-dir={room}",
        ):
            options.add_argument(it)
        options.set_capability("goog:loggingPrefs", {"browser": "ALL"})
        if downloads is not None:
            options.add_experimental_option("prefs", {"download.default_directory": str(downloads)})
        driver = webdriver.Chrome(service=Service(shutil.which("chromedriver")), options=options)
        try:
            driver.set_script_timeout(300)
            yield driver
        finally:
            driver.quit()


def complaints(driver):
    """Gives the errors that the browser has logged since this was last asked."""
    return [it["message"] for it in driver.get_log("browser") if it["level"] == "SEVERE"]
