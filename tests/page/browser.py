"""A browser without a window, which is told what to do through pipes (the DevTools protocol)."""
import json
import os
import resource
import shutil
import subprocess
from contextlib import contextmanager
from pathlib import Path
from typing import Any, Dict, Iterator, List, Optional

from common.sessions import end_session

NAMES = ("chromium", "chromium-browser", "google-chrome")
WORDS = ("--headless", "--no-sandbox", "--disable-gpu", "--disable-dev-shm-usage", "--remote-debugging-pipe")


def installed() -> Optional[str]:
    """The browser's program."""
    return next(filter(None, map(shutil.which, NAMES)), None)


class Browser:
    """A page in a browser that runs."""

    def __init__(self, asks: int, answers: int) -> None:
        self._asks, self._answers = asks, os.fdopen(answers, "rb")
        self._number = 0
        self._session: Optional[str] = None
        self.events: List[Dict[str, Any]] = []
        self._left = b""
        target = self.ask("Target.createTarget", url="about:blank")["targetId"]
        self._session = self.ask("Target.attachToTarget", targetId=target, flatten=True)["sessionId"]
        for domain in ("Page", "Runtime", "Log", "Network"):
            self.ask(f"{domain}.enable")

    def _next(self) -> Dict[str, Any]:
        while b"\0" not in self._left:
            more = os.read(self._answers.fileno(), 1 << 16)
            if not more:
                raise EOFError("the browser ended")
            self._left += more
        message, _, self._left = self._left.partition(b"\0")
        return json.loads(message)

    def ask(self, method: str, **given: Any) -> Dict[str, Any]:
        """What the browser answers to a call."""
        self._number += 1
        call = {"id": self._number, "method": method, "params": given}
        if self._session:
            call["sessionId"] = self._session
        os.write(self._asks, json.dumps(call).encode() + b"\0")
        while True:
            message = self._next()
            if message.get("id") == self._number:
                if "error" in message:
                    raise RuntimeError(f"{method}: {message['error']}")
                return message["result"]
            self.events.append(message)

    def open(self, address: str) -> None:
        """Goes to a page, and waits until it is there."""
        self.events.clear()
        self.ask("Page.navigate", url="about:blank")
        self.ask("Page.navigate", url=address)
        while self.value("location.href === 'about:blank' || document.readyState !== 'complete'"):
            pass

    def value(self, expression: str) -> Any:
        """The value of an expression in the page."""
        found = self.ask("Runtime.evaluate", expression=expression, returnByValue=True)
        if "exceptionDetails" in found:
            raise RuntimeError(str(found["exceptionDetails"]))
        return found["result"].get("value")

    def complaints(self) -> List[str]:
        """What went wrong in the page, or what it asked the network for besides itself."""
        self.value("0")
        found = []
        for event in self.events:
            if event["method"] in ("Log.entryAdded", "Runtime.exceptionThrown"):
                found.append(json.dumps(event["params"])[:300])
            if event["method"] == "Network.requestWillBeSent":
                address = event["params"]["request"]["url"]
                found += [] if address.startswith("file:") or address == "about:blank" else [f"asks for {address}"]
        return found


@contextmanager
def new_browser(program: str, folder: Path) -> Iterator[Browser]:
    """A browser whose files are in a folder."""
    asks_read, asks_write = os.pipe()
    answers_read, answers_write = os.pipe()

    def prepare() -> None:
        os.dup2(asks_read, 20)
        os.dup2(answers_write, 21)
        os.dup2(20, 3)
        os.dup2(21, 4)
        # (a browser wants far more addresses than memory)
        hard = resource.getrlimit(resource.RLIMIT_AS)[1]
        resource.setrlimit(resource.RLIMIT_AS, (hard, hard))

    process = subprocess.Popen(
        [program, *WORDS, f"--user-data-dir={folder / 'profile'}", "about:blank"],
        stdin=subprocess.DEVNULL,
        stdout=subprocess.DEVNULL,
        stderr=subprocess.DEVNULL,
        close_fds=False,
        preexec_fn=prepare,
        start_new_session=True,
        env={**os.environ, "HOME": str(folder), "TMPDIR": str(folder)},
    )
    os.close(asks_read)
    os.close(answers_write)
    try:
        yield Browser(asks_write, answers_read)
    finally:
        process.terminate()
        process.wait()
        end_session(process.pid, folder)
        os.close(asks_write)
