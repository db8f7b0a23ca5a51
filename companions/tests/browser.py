"""A browser without a window: Chromium, asked over two pipes by its DevTools protocol."""
import base64
import fcntl
import json
import os
import select
import shutil
import subprocess
import tempfile
import time

# A machine with other work may take long to start a browser.
SECONDS = 120
# Where Chromium reads commands and writes answers.
COMMANDS, ANSWERS = 3, 4
WORDS = ["--headless=new", "--no-sandbox", "--disable-gpu", "--disable-dev-shm-usage", "--no-first-run", "--disable-breakpad", "--remote-debugging-pipe"]
# So many lines of a long page are in its picture.
TALLEST = 4000
# What a page has no reason for: lines in the console, errors, texts that stop it, and refusals by its own policy.
COMPLAINTS = {"Runtime.consoleAPICalled", "Runtime.exceptionThrown", "Log.entryAdded", "Page.javascriptDialogOpening"}


def found_browser():
    return shutil.which("chromium") or shutil.which("chromium-browser") or shutil.which("google-chrome")


def pipe():
    """The two ends of a pipe, with numbers above those that Chromium takes."""
    ends = os.pipe()
    moved = [fcntl.fcntl(end, fcntl.F_DUPFD_CLOEXEC, 10) for end in ends]
    for end in ends:
        os.close(end)
    return moved


class Browser:
    """A browser with one page, which `close` ends."""

    def __init__(self):
        self.folder = tempfile.mkdtemp()
        theirs, self.to = pipe()
        self.out, answers = pipe()

        def take_pipes():
            os.dup2(theirs, COMMANDS)
            os.dup2(answers, ANSWERS)

        self.process = subprocess.Popen(
            [found_browser(), *WORDS, f"--user-data-dir={self.folder}", "about:blank"],
            stdin=subprocess.DEVNULL,
            stdout=subprocess.DEVNULL,
            stderr=subprocess.DEVNULL,
            preexec_fn=take_pipes,
            close_fds=False,
            env=os.environ | {"HOME": self.folder},
        )
        os.close(theirs)
        os.close(answers)
        self.left, self.asked, self.session, self.events = b"", 0, None, []
        try:
            self.begin()
        except BaseException:
            self.close()
            raise

    def begin(self):
        """Makes the page, and asks to be told what happens on it."""
        target = self.ask("Target.createTarget", url="about:blank")["targetId"]
        self.session = self.ask("Target.attachToTarget", targetId=target, flatten=True)["sessionId"]
        for domain in ("Page", "Runtime", "Log", "Network"):
            self.ask(f"{domain}.enable")
        # In the processor's time, which doesn't grow while the machine does other work.
        self.ask("Performance.enable", timeDomain="threadTicks")

    def close(self):
        try:
            self.session = None
            self.ask("Browser.close")
            self.process.wait(SECONDS)
        except (OSError, TimeoutError, subprocess.TimeoutExpired):
            self.process.kill()
            self.process.wait()
        os.close(self.to)
        os.close(self.out)
        shutil.rmtree(self.folder, ignore_errors=True)

    def message(self, until):
        """The next message, each of which ends with a zero byte."""
        while b"\0" not in self.left:
            if not select.select([self.out], [], [], max(until - time.monotonic(), 0))[0]:
                raise TimeoutError(f"the browser said nothing for {SECONDS} s")
            got = os.read(self.out, 1 << 20)
            if not got:
                raise OSError("the browser has ended")
            self.left += got
        text, self.left = self.left.split(b"\0", 1)
        return json.loads(text)

    def ask(self, method, **words):
        """The answer to a command; what happens meanwhile is noted."""
        self.asked += 1
        command = {"id": self.asked, "method": method, "params": words} | ({"sessionId": self.session} if self.session else {})
        text = json.dumps(command).encode() + b"\0"
        while text:
            text = text[os.write(self.to, text) :]
        until = time.monotonic() + SECONDS
        while True:
            told = self.message(until)
            if told.get("id") == self.asked:
                if "error" in told:
                    raise AssertionError(f"{method}: {told['error']}")
                return told["result"]
            self.events.append(told)

    def happened(self, *methods):
        return [one for one in self.events if one.get("method") in methods]

    def open(self, path, width=1400, height=900):
        """Opens a page in a window of this size, and waits until it is there whole."""
        self.ask("Emulation.setDeviceMetricsOverride", width=width, height=height, deviceScaleFactor=1, mobile=False)
        self.events.clear()
        self.ask("Page.navigate", url=path.as_uri())
        until = time.monotonic() + SECONDS
        while self.told("[document.readyState, location.href]") != ["complete", path.as_uri()]:
            if time.monotonic() > until:
                raise TimeoutError(f"{path} isn't there after {SECONDS} s")
            time.sleep(0.05)
        self.settle()

    def told(self, expression):
        """What an expression of the page's language is, as a value."""
        answer = self.ask("Runtime.evaluate", expression=expression, returnByValue=True, awaitPromise=True)
        if "exceptionDetails" in answer:
            raise AssertionError(f"{expression}: {answer['exceptionDetails']}")
        return answer["result"].get("value")

    def measures(self):
        """What the page has taken so far, and how much there is of it, by name."""
        return {one["name"]: one["value"] for one in self.ask("Performance.getMetrics")["metrics"]}

    def press(self, key):
        """Presses a key that writes a letter."""
        for kind in ("keyDown", "keyUp"):
            self.ask("Input.dispatchKeyEvent", type=kind, key=key, text=key if kind == "keyDown" else "")

    def follow(self, link):
        """Goes where a link within the page leads, as a click does, and waits until the page has moved."""
        self.told(f"location.hash = ''; scrollTo(0, 0); document.querySelector('a[href=\"{link}\"]').click()")
        # A page may bring a line back that others have moved: two frames for each settling.
        self.settle()
        self.settle()

    def settle(self):
        """Waits until the page was drawn twice."""
        self.told("new Promise(done => requestAnimationFrame(() => requestAnimationFrame(() => done(1))))")

    def complaints(self):
        return [one["params"] for one in self.happened(*COMPLAINTS)]

    def addresses(self):
        """Everything that was loaded."""
        return [one["params"]["request"]["url"] for one in self.happened("Network.requestWillBeSent")]

    def screenshot(self):
        """The page from its top, and as far as it goes, as a PNG."""
        self.told("scrollTo(0, 0)")
        self.settle()
        size = self.ask("Page.getLayoutMetrics")["cssContentSize"]
        clip = {"x": 0, "y": 0, "width": size["width"], "height": min(size["height"], TALLEST), "scale": 1}
        return base64.b64decode(self.ask("Page.captureScreenshot", format="png", captureBeyondViewport=True, clip=clip)["data"])
