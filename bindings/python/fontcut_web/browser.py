"""Chromium without a window, which is told over a pipe what to do, by its DevTools protocol."""
from __future__ import annotations

import contextlib
import fcntl
import json
import os
import select
import signal
import subprocess
import sys
import time
from typing import Any, Dict, List, Mapping, Optional, Sequence, Tuple

# Begins the browser, which reads the file 3 and writes to the file 4: those that are given have other numbers.
_BEGINS = ("import os, sys; ends = [int(word) for word in sys.argv[1:3]]; os.dup2(ends[0], 3); os.dup2(ends[1], 4); "
           "[os.close(end) for end in ends]; os.execvp(sys.argv[3], sys.argv[3:])")
_DIALOG = "Page.javascriptDialogOpening"


class Failed(Exception):
    """What the browser or a page says that it cannot do."""


class Browser:
    """A browser, whose answers are waited for so many seconds."""

    def __init__(self, words: Sequence[str], env: Mapping[str, str], seconds: float) -> None:
        self.seconds, self.count, self.said = seconds, 0, b""
        self.events: List[Tuple[Optional[str], Optional[str]]] = []
        (its_input, self.told), (self.answers, its_output) = os.pipe(), os.pipe()
        ends = [fcntl.fcntl(end, fcntl.F_DUPFD, 10) for end in (its_input, its_output)]
        begins = [sys.executable, "-SIc", _BEGINS, *map(str, ends), *words, "--remote-debugging-pipe", "about:blank"]
        try:
            self.process = subprocess.Popen(begins, env=dict(env), pass_fds=ends, stdin=subprocess.DEVNULL,
                                            stdout=subprocess.DEVNULL, stderr=subprocess.DEVNULL,
                                            start_new_session=True)
        finally:
            for end in (its_input, its_output, *ends):
                os.close(end)

    def close(self) -> None:
        """Ends the browser with its processes. It would end by itself where it is told nothing more, and first write to
        its profile, which is gone then."""
        with contextlib.suppress(ProcessLookupError):
            os.killpg(self.process.pid, signal.SIGKILL)
        self.process.wait()
        for end in self.told, self.answers:
            os.close(end)

    def _message(self, until: float) -> Dict[str, Any]:
        """The next message of the browser. Dialogs of pages are closed, which wait for readers."""
        while b"\0" not in self.said:
            if not select.select([self.answers], [], [], max(0, until - time.monotonic()))[0]:
                raise Failed(f"no answer in {self.seconds} seconds")
            some = os.read(self.answers, 1 << 20)
            if not some:
                raise Failed("the browser has ended")
            self.said += some
        message, _, self.said = self.said.partition(b"\0")
        told: Dict[str, Any] = json.loads(message)
        if told.get("method") == _DIALOG:
            self._send("Page.handleJavaScriptDialog", told.get("sessionId", ""), {"accept": False})
        return told

    def _send(self, method: str, session: str, given: Mapping[str, object]) -> int:
        """Tells the browser a command, and returns the number that its answer has."""
        self.count += 1
        sent = {"id": self.count, "method": method, "params": given, **({"sessionId": session} if session else {})}
        data = json.dumps(sent).encode() + b"\0"
        try:
            while data:
                data = data[os.write(self.told, data):]
        except BrokenPipeError as error:
            raise Failed("the browser has ended") from error
        return self.count

    def ask(self, method: str, session: str = "", **given: object) -> Dict[str, Any]:
        """What the browser answers to a command, or a page that it is attached to by a session."""
        number, until = self._send(method, session, given), time.monotonic() + self.seconds
        answer = self._message(until)
        while answer.get("id") != number:
            self.events.append((answer.get("method"), answer.get("sessionId")))
            answer = self._message(until)
        if "error" in answer:
            raise Failed(f"{method}: {answer['error']['message']}")
        result: Dict[str, Any] = answer["result"]
        return result

    def forget(self, event: str, session: str) -> None:
        """Forgets an event of a page that has come."""
        self.events = [one for one in self.events if one != (event, session)]

    def wait_for(self, event: str, session: str) -> None:
        """Waits for an event of a page since it is attached to."""
        until = time.monotonic() + self.seconds
        while (event, session) not in self.events:
            told = self._message(until)
            self.events.append((told.get("method"), told.get("sessionId")))
