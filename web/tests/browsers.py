"""Chromium, driven by selenium, and Firefox, driven by its own protocol, Marionette: Debian has no geckodriver."""

import base64
import contextlib
import importlib
import importlib.util
import json
import os
import shutil
import socket
import subprocess
import time
from collections.abc import Callable, Iterator
from typing import Any

from needs import leave_out, pass_over
from shared import LIMIT, ROOT, write

# Keys by their names, as WebDriver has them.
KEYS = {"TAB": "\ue004", "ENTER": "\ue007", "ESCAPE": "\ue00c", "SPACE": "\ue00d"}
WIDTH, HEIGHT = 1000, 1400
# Where pictures go of what a page shows at the end.
PICTURES = f"{ROOT}/out/pictures"


class Chromium:
    """A browser with one page."""

    def __init__(self, folder: str) -> None:
        for it in ["chromium", "chromedriver"]:
            if not shutil.which(it):
                leave_out(it)
        if not importlib.util.find_spec("selenium"):
            leave_out("selenium")
        # mypy need not know it.
        self.module: Any = importlib.import_module("selenium.webdriver")
        options = self.module.ChromeOptions()
        words = ["headless=new", "no-sandbox", "disable-gpu", f"window-size={WIDTH},{HEIGHT}", "disable-dev-shm-usage"]
        # All that leaves the page would go to a proxy that is not there, and is in the log.
        for it in [*words, "proxy-server=127.0.0.1:9", f"user-data-dir={folder}/chromium"]:
            options.add_argument(f"--{it}")
        options.binary_location = shutil.which("chromium")
        options.set_capability("goog:loggingPrefs", {"browser": "ALL", "performance": "ALL"})
        options.add_experimental_option("prefs", {"download.default_directory": f"{folder}/saved"})
        service = importlib.import_module("selenium.webdriver.chrome.service").Service(shutil.which("chromedriver"))
        try:
            self.driver = self.module.Chrome(service=service, options=options)
        except importlib.import_module("selenium.common.exceptions").WebDriverException:
            pass_over("a Chromium that begins")

    def go(self, url: str) -> None:
        self.driver.get(url)

    def js(self, script: str, *words: Any) -> Any:
        return self.driver.execute_script(script, *words)

    def choose(self, *paths: str, at: str = "choose") -> None:
        self.driver.find_element("id", at).send_keys("\n".join(paths))

    def press(self, *names: str) -> None:
        for it in names:
            self.module.ActionChains(self.driver).send_keys(KEYS[it]).perform()

    def named(self, css: str) -> list[list[str]]:
        """Returns the roles and the names of elements, as the browser tells them to a screen reader."""
        return [[it.aria_role, it.accessible_name] for it in self.driver.find_elements("css selector", css)]

    def picture(self, path: str) -> None:
        self.driver.save_screenshot(path)

    def complaints(self) -> list[str]:
        """Returns what the console has, and the requests of pages that are no files and of no page."""
        # This directive stands for browsers that know it.
        told = [it["message"] for it in self.driver.get_log("browser")]
        logged = [it for it in told if "Unrecognized Content-Security-Policy directive 'webrtc'" not in it]
        events = [json.loads(it["message"])["message"] for it in self.driver.get_log("performance")]
        urls = [it["params"]["request"]["url"] for it in events if it["method"] == "Network.requestWillBeSent"]
        return [*logged, *(it for it in urls if not it.startswith(("file:", "blob:", "data:", "chrome:")))]

    def end(self) -> None:
        self.driver.quit()


class Firefox:
    """A browser with one page."""

    def __init__(self, folder: str) -> None:
        if not shutil.which("firefox-esr"):
            leave_out("firefox-esr")
        with socket.socket() as free:
            free.bind(("127.0.0.1", 0))
            port = free.getsockname()[1]
        os.makedirs(f"{folder}/firefox")
        # All that leaves the page would go to a proxy that is not there.
        proxy = {"network.proxy.type": 1, "network.proxy.http": '"127.0.0.1"', "network.proxy.http_port": 9}
        proxy |= {"network.proxy.ssl": '"127.0.0.1"', "network.proxy.ssl_port": 9}
        saving = {"browser.download.folderList": 2, "browser.download.dir": f'"{folder}/saved"'}
        settings = {"marionette.port": port, "datareporting.policy.dataSubmissionEnabled": "false", **proxy, **saving}
        settings |= {"security.sandbox.content.level": 0, "browser.shell.checkDefaultBrowser": "false"}
        write(f"{folder}/firefox/user.js", "".join(f'user_pref("{it}", {to});\n' for it, to in settings.items()))
        words = ["firefox-esr", "--marionette", "--headless", "--no-remote", f"--profile={folder}/firefox"]
        own = {**os.environ, "HOME": folder, "MOZ_HEADLESS": "1", "MOZ_DISABLE_CONTENT_SANDBOX": "1"}
        quiet = subprocess.DEVNULL
        self.process = subprocess.Popen([*words, "--profile", f"{folder}/firefox"], env=own, stdout=quiet, stderr=quiet)
        self.stream, self.rest, self.count = connected(port), b"", 0
        self.answer()
        self.call("WebDriver:NewSession", capabilities={})
        self.call("WebDriver:SetWindowRect", width=WIDTH, height=HEIGHT)

    def answer(self) -> Any:
        """Returns the next message, which follows its length."""
        while b":" not in self.rest:
            self.rest += self.stream.recv(65536)
        length, _, self.rest = self.rest.partition(b":")
        while len(self.rest) < int(length):
            self.rest += self.stream.recv(65536)
        found, self.rest = self.rest[: int(length)], self.rest[int(length) :]
        return json.loads(found)

    def call(self, command: str, **words: Any) -> Any:
        self.count += 1
        told = json.dumps([0, self.count, command, words]).encode()
        self.stream.sendall(b"%d:%s" % (len(told), told))
        _, _, error, value = self.answer()
        assert not error, f"{command}: {error}"
        return value.get("value", value) if isinstance(value, dict) else value

    def go(self, url: str) -> None:
        self.call("WebDriver:Navigate", url=url)

    def js(self, script: str, *words: Any) -> Any:
        return self.call("WebDriver:ExecuteScript", script=script, args=[*words], newSandbox=False)

    def choose(self, *paths: str, at: str = "choose") -> None:
        [found] = self.call("WebDriver:FindElement", using="css selector", value=f"#{at}").values()
        self.call("WebDriver:ElementSendKeys", id=found, text="\n".join(paths))

    def press(self, *names: str) -> None:
        for it in names:
            down, up = ({"type": f"key{way}", "value": KEYS[it]} for way in ["Down", "Up"])
            actions = [{"type": "key", "id": "keys", "actions": [down, up]}]
            self.call("WebDriver:PerformActions", actions=actions)

    def named(self, css: str) -> list[list[str]]:
        """Returns the roles and the names of elements, as the browser tells them to a screen reader."""
        found = [*self.call("WebDriver:FindElements", using="css selector", value=css)]
        ids = [next(iter(it.values())) for it in found]
        return [[self.call(f"WebDriver:GetComputed{of}", id=it) for of in ("Role", "Label")] for it in ids]

    def picture(self, path: str) -> None:
        with open(path, "wb") as file:
            file.write(base64.b64decode(self.call("WebDriver:TakeScreenshot", full=False)))

    def complaints(self) -> list[str]:
        """Marionette tells no console; what fails in the page, it shows."""
        return []

    def end(self) -> None:
        with contextlib.suppress(AssertionError, OSError, ValueError):
            self.call("Marionette:Quit", flags=["eForceQuit"])
        self.stream.close()
        with contextlib.suppress(subprocess.TimeoutExpired):
            self.process.wait(10)
        self.process.kill()
        self.process.wait()


def connected(port: int) -> socket.socket:
    """Returns a connection to Firefox, which begins. Where it does not, as in some containers, the tests are passed
    over."""
    most = time.monotonic() + LIMIT
    while True:
        try:
            return socket.create_connection(("127.0.0.1", port))
        except OSError:
            if most < time.monotonic():
                pass_over("a Firefox that begins")
            time.sleep(0.2)


@contextlib.contextmanager
def browsing(kind: Callable[[str], Any], folder: str, name: str) -> Iterator[Any]:
    """Begins a browser with a folder of its own, and ends it: with a picture of what it then shows, by this name."""
    os.makedirs(f"{folder}/saved")
    browser = kind(folder)
    try:
        yield browser
        assert browser.complaints() == []
    finally:
        os.makedirs(PICTURES, exist_ok=True)
        browser.picture(f"{PICTURES}/{name}.png")
        browser.end()
