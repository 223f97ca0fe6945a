"""Drives Chromium by chromedriver's protocol (WebDriver), with the standard library alone."""
import base64
import json
import shutil
import socket
import subprocess
import tempfile
import time
import urllib.error
import urllib.request

PACKAGES = "apt-get install chromium chromium-driver"
ELEMENT = "element-6066-11e4-a52e-4f735466cecf"
ARGUMENTS = ["--headless=new", "--no-sandbox", "--disable-gpu", "--disable-dev-shm-usage", "--hide-scrollbars", "--no-first-run", "--disable-background-networking", "--disable-component-update", "--disable-sync", "--disable-lcd-text"]
KEYS = {"Control": "\ue009", "Alt": "\ue00a", "Shift": "\ue008", "Tab": "\ue004", "Enter": "\ue007", "Up": "\ue013", "Down": "\ue015", "Home": "\ue011", "End": "\ue010", "Delete": "\ue017"}


def is_here():
    return shutil.which("chromedriver") is not None and (shutil.which("chromium") or shutil.which("google-chrome")) is not None


class Fault(Exception):
    """What the browser refused, or what didn't come."""


class Browser:
    """A browser without a window, with one page."""

    def __init__(self):
        self.folder = tempfile.mkdtemp(prefix="browser-")
        with socket.socket() as free:
            free.bind(("127.0.0.1", 0))
            self.port = free.getsockname()[1]
        self.driver = subprocess.Popen(["chromedriver", f"--port={self.port}"], stdout=subprocess.DEVNULL, stderr=subprocess.DEVNULL)
        self.session = ""
        self.wait(self.is_up, "chromedriver")
        options = {"args": [*ARGUMENTS, f"--user-data-dir={self.folder}/profile"]}
        made = self.call("POST", "/session", {"capabilities": {"alwaysMatch": {"goog:chromeOptions": options, "goog:loggingPrefs": {"browser": "ALL"}}}})
        self.session = "/session/" + made["sessionId"]
        self.version = made["capabilities"]["browserVersion"]
        self.command("Browser.setDownloadBehavior", behavior="allow", downloadPath=self.folder)

    def is_up(self):
        try:
            return self.call("GET", "/status")["ready"]
        except OSError:
            return False

    def call(self, method, path, body=None):
        data = None if body is None else json.dumps(body).encode()
        request = urllib.request.Request(f"http://127.0.0.1:{self.port}{self.session}{path}", method=method, data=data, headers={"Content-Type": "application/json"})
        try:
            with urllib.request.urlopen(request, timeout=300) as answer:
                return json.load(answer)["value"]
        except urllib.error.HTTPError as error:
            raise Fault(json.load(error)["value"]["message"][:500]) from None

    def wait(self, test, what, seconds=60):
        until = time.monotonic() + seconds
        while time.monotonic() < until:
            found = test()
            if found:
                return found
            time.sleep(0.02)
        raise Fault(f"{what} didn't come in {seconds} s")

    def command(self, name, **words):
        return self.call("POST", "/goog/cdp/execute", {"cmd": name, "params": words})

    def open(self, address):
        """Opens an address, in a browser that has kept nothing."""
        self.call("POST", "/url", {"url": "about:blank"})
        self.command("Storage.clearDataForOrigin", origin="file://", storageTypes="local_storage")
        self.call("POST", "/url", {"url": address})

    def reload(self):
        self.call("POST", "/refresh", {})

    def script(self, text, *words):
        return self.call("POST", "/execute/sync", {"script": text, "args": list(words)})

    def promise(self, text, *words):
        """What a script with `return await ..` gives."""
        whole = f"const done = arguments[arguments.length - 1]; const words = [...arguments].slice(0, -1); (async () => {{ {text} }})().then((value) => done([value]), (error) => done([null, String(error)]));"
        self.call("POST", "/timeouts", {"script": 240000})
        answer = self.call("POST", "/execute/async", {"script": whole, "args": list(words)})
        if len(answer) > 1:
            raise Fault(answer[1])
        return answer[0]

    def find(self, selector):
        return self.call("POST", "/element", {"using": "css selector", "value": selector})[ELEMENT]

    def click(self, selector):
        self.call("POST", f"/element/{self.find(selector)}/click", {})

    def send(self, selector, text):
        self.call("POST", f"/element/{self.find(selector)}/value", {"text": text})

    def label(self, selector):
        return self.call("GET", f"/element/{self.find(selector)}/computedlabel")

    def press(self, *names):
        """Presses keys together, the last one as long as the others are held."""
        keys = [KEYS.get(name, name) for name in names]
        steps = [{"type": "keyDown", "value": key} for key in keys] + [{"type": "keyUp", "value": key} for key in reversed(keys)]
        self.call("POST", "/actions", {"actions": [{"type": "key", "id": "keys", "actions": steps}]})

    def size(self, width, height, scale=1):
        self.command("Emulation.setDeviceMetricsOverride", width=width, height=height, deviceScaleFactor=scale, mobile=False)

    def scheme(self, name):
        self.command("Emulation.setEmulatedMedia", features=[{"name": "prefers-color-scheme", "value": name}])

    def picture(self, selector=None):
        """A picture of what is seen, or of one element."""
        return base64.b64decode(self.call("GET", "/screenshot" if selector is None else f"/element/{self.find(selector)}/screenshot"))

    def complaints(self):
        """What the page wrote to the console as errors."""
        return [entry["message"] for entry in self.call("POST", "/se/log", {"type": "browser"}) if entry["level"] == "SEVERE"]

    def close(self):
        try:
            if self.session:
                self.call("DELETE", "")
        finally:
            self.driver.terminate()
            self.driver.wait(20)
            shutil.rmtree(self.folder, ignore_errors=True)
