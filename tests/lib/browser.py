"""Chromium without a window, for tests of pages: how it is started, a server of pages on loopback, and a page that is
told what to do."""
from __future__ import annotations

import base64
import contextlib
import functools
import html
import http.server
import json
import os
import shutil
import sys
import tempfile
import threading
from typing import Any, Callable, Iterable, Iterator, Optional

from checks import TOP, built, put, skip, skip_all

sys.path.append(os.path.join(TOP, "bindings", "python"))
from fontcut_web.browser import Browser, Failed as Failed  # noqa: E402 - it is found by the line above

CHROMIUM = ["chromium", "--headless=new", "--no-sandbox", "--disable-gpu", "--hide-scrollbars",
            "--force-device-scale-factor=1", "--window-size=1000,1500"]
SECONDS = 120  # that a page may take for anything that it is told

# Outlines are to be drawn as they are. FreeType's automatic hinting moves them by what it finds in other
# letters of the same file, so that a cut without these letters would be drawn a little otherwise. And the
# installed fonts of some folders are hidden, for a page without its font would be shown in one of them.
CONFIGURATION = """<?xml version="1.0"?>
<!DOCTYPE fontconfig SYSTEM "fonts.dtd">
<fontconfig>
  <selectfont><rejectfont>{}</rejectfont></selectfont>
  <match target="pattern">
    <edit name="hinting" mode="assign"><bool>false</bool></edit>
    <edit name="hintstyle" mode="assign"><const>hintnone</const></edit>
  </match>
</fontconfig>
"""

KINDS = {".js": "text/javascript", ".mjs": "text/javascript", ".html": "text/html; charset=utf-8",
         ".wasm": "application/wasm", ".css": "text/css", ".json": "application/json"}


def pages_built() -> None:
    """Builds the program. Where there is no browser the script ends here."""
    built()
    if not shutil.which("chromium"):
        skip_all("pages", "Debian's package chromium is not installed")
    if not shutil.which("woff2_compress"):
        skip("cuts as WOFF2", "Debian's package woff2 is not installed")


def configured(folder: str, hidden: Iterable[str]) -> dict[str, str]:
    """Keeps in a folder, which is a browser's home, that it draws without hinting and without the installed fonts of
    some folders: the environment of the browser."""
    place = os.path.join(folder, ".config", "fontconfig")
    os.makedirs(place, exist_ok=True)
    globs = "".join(f"<glob>{html.escape(one)}/*</glob>" for one in hidden)
    put(os.path.join(place, "fonts.conf"), CONFIGURATION.format(globs).encode())
    return {**os.environ, "HOME": folder, "XDG_CONFIG_HOME": os.path.join(folder, ".config")}


class Files(http.server.SimpleHTTPRequestHandler):
    """Serves the files of a folder, and adds the names of those that are asked for to a list."""

    extensions_map = {**http.server.SimpleHTTPRequestHandler.extensions_map, **KINDS}

    def __init__(self, asked: list[str], *words: Any, **how: Any) -> None:
        self.asked = asked
        super().__init__(*words, **how)

    def log_message(self, *_: object) -> None:
        pass

    def do_GET(self) -> None:
        self.asked.append(self.path.lstrip("/"))
        super().do_GET()


# What makes the handler of a request.
Handler = Callable[..., http.server.BaseHTTPRequestHandler]


@contextlib.contextmanager
def serving(handler: Handler) -> Iterator[str]:
    """Runs a server on a free port of loopback, and hands out its address."""
    with http.server.ThreadingHTTPServer(("127.0.0.1", 0), handler) as server:
        threading.Thread(target=server.serve_forever, daemon=True).start()
        try:
            yield f"http://127.0.0.1:{server.server_port}"
        finally:
            server.shutdown()


def files_of(folder: str, asked: Optional[list[str]] = None) -> Handler:
    """What answers with the files of a folder."""
    return functools.partial(Files, [] if asked is None else asked, directory=folder)


class Page(Browser):
    """A page in a browser of its own, which is told what to do and waited for."""

    def __init__(self, folder: str, hidden: Iterable[str] = ()) -> None:
        self.profile, self.session = tempfile.mkdtemp(prefix="profile-", dir=folder), ""
        super().__init__([*CHROMIUM, f"--user-data-dir={self.profile}"], configured(folder, hidden), SECONDS)
        try:
            target = self.ask("Target.createTarget", url="about:blank")["targetId"]
            self.session = self.ask("Target.attachToTarget", targetId=target, flatten=True)["sessionId"]
        except BaseException:
            self.close()
            raise

    def __enter__(self) -> Page:
        return self

    def __exit__(self, *_: object) -> None:
        self.close()

    def close(self) -> None:
        """Ends the browser."""
        super().close()
        shutil.rmtree(self.profile, ignore_errors=True)

    def ask(self, method: str, session: str = "", **given: object) -> dict[str, Any]:
        """What the browser answers to a command, for the page once there is one."""
        return super().ask(method, session or self.session, **given)

    def run(self, code: str) -> Any:
        """The value of an expression in the page, which is waited for where it is a promise."""
        told = self.ask("Runtime.evaluate", expression=code, awaitPromise=True, returnByValue=True)
        if "exceptionDetails" in told:
            thrown = told["exceptionDetails"]
            raise Failed(thrown.get("exception", {}).get("description") or thrown["text"])
        return told["result"].get("value")

    def call(self, name: str, *given: object) -> Any:
        """What a function of the page answers."""
        return self.run(f"{name}({', '.join(map(json.dumps, given))})")

    def open(self, address: str) -> None:
        """Opens a page, and waits until it is loaded."""
        told = self.ask("Page.navigate", url=address)
        if "errorText" in told:
            raise Failed(f"{address}: {told['errorText']}")
        self.run("document.readyState === 'complete' || new Promise(done => addEventListener('load', done))"
                 ".then(() => true)")

    def picture(self, selector: str) -> bytes:
        """The bytes of a picture, as PNG, of an element that lies in the window."""
        box = self.run(f"(({{x, y, width, height}}) => ({{x, y, width, height}}))"
                       f"(document.querySelector({json.dumps(selector)}).getBoundingClientRect())")
        taken = self.ask("Page.captureScreenshot", format="png", clip={**box, "scale": 1})
        return base64.b64decode(taken["data"])
