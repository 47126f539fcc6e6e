#!/usr/bin/env python3
"""Serves the pages of this folder on loopback, with the package for browsers and cuts of fonts by examples/server.

In a checkout the package and the library for C are built if they are not built yet. `--package` names the folder of
an existing package, and the variable FONTCUT_LIBRARY an existing library. Cuts are compressed by Brotli or gzip, and
later ones with an earlier cut as a dictionary, by what this Python has; what it lacks is said at the start.
"""
from __future__ import annotations

import argparse
import contextlib
import functools
import gzip
import importlib.util
import mimetypes
import os
import signal
import socketserver
import subprocess
import sys
import tempfile
import wsgiref.simple_server
import wsgiref.util
from typing import TYPE_CHECKING, Any, Callable, Iterable, List, Tuple

if TYPE_CHECKING:
    from wsgiref.types import StartResponse, WSGIApplication, WSGIEnvironment

HERE = os.path.dirname(os.path.realpath(__file__))
TOP = os.path.dirname(os.path.dirname(HERE))
FONTS = {"/usr/share/fonts/truetype/lxgw-wenkai/LXGWWenKai-Regular.ttf": "fonts-lxgw-wenkai",
         "/usr/share/fonts/truetype/noto/NotoNaskhArabic-Regular.ttf": "fonts-noto-core"}

# The modules that compress cuts, Debian's packages that have them, and what happens without.
COMPRESSING = [("brotli", "python3-brotli", "the first cut of a page is compressed by gzip, which takes more bytes"),
               ("zstandard", "python3-zstandard", "no cut is compressed with an earlier one as a dictionary")]


class Server(socketserver.ThreadingMixIn, wsgiref.simple_server.WSGIServer):
    """Answers each request in a thread of its own."""
    daemon_threads = True


class Quiet(wsgiref.simple_server.WSGIRequestHandler):
    """Says nothing of requests."""
    def log_message(self, *_: object) -> None:
        pass


def built(*path: str) -> List[str]:
    """The lines that a script prints which builds something where that is not built yet."""
    return subprocess.run([os.path.join(TOP, *path)], stdout=subprocess.PIPE, check=True, text=True).stdout.splitlines()


def cuts_of(folder: str) -> WSGIApplication:
    """The application of examples/server over the fonts of the pages."""
    if "FONTCUT_LIBRARY" not in os.environ:
        os.environ["FONTCUT_LIBRARY"] = built("bindings", "c", "build")[1]
    sys.path[:0] = [os.path.join(TOP, "bindings", "python"), os.path.join(TOP, "examples", "server")]
    import app
    for path, package in FONTS.items():
        if os.path.exists(path):
            os.symlink(path, os.path.join(folder, os.path.basename(path)))
        else:
            print(f"Debian's package {package} is not installed", file=sys.stderr)
    return app.Application(folder)


def say_what_lacks() -> None:
    """Names the modules that compress cuts and that this Python does not have."""
    for module, package, loss in COMPRESSING:
        if not importlib.util.find_spec(module):
            said = f"{sys.executable} has no module {module}: {loss}; Debian's package {package} has it"
            print(said, file=sys.stderr)


def coding(environ: WSGIEnvironment) -> Tuple[str, Callable[[bytes], bytes]]:
    """How an answer is compressed: by Brotli, or by gzip, which every Python has, or not at all."""
    accepted = environ.get("HTTP_ACCEPT_ENCODING", "")
    if "br" in accepted and importlib.util.find_spec("brotli"):
        import brotli
        return "br", functools.partial(brotli.compress, quality=5)
    if "gzip" in accepted:
        return "gzip", functools.partial(gzip.compress, mtime=0)
    return "", bytes


def compressed(environ: WSGIEnvironment, start_response: StartResponse, cuts: WSGIApplication) -> Iterable[bytes]:
    """The answer of an application, compressed where it is not yet."""
    name, compress = coding(environ)
    if not name:
        return cuts(environ, start_response)
    said: List[Tuple[str, List[Tuple[str, str]]]] = []

    def keep(status: str, headers: List[Tuple[str, str]], *_: Any) -> Any:
        said.append((status, headers))

    body, (status, headers) = b"".join(cuts(environ, keep)), said[0]
    if status.startswith("200") and body and "Content-Encoding" not in dict(headers):
        body, tag = compress(body), dict(headers)["ETag"]
        headers = [(key, value) for key, value in headers if key not in ("Content-Length", "ETag")]
        # A strong tag would say that these are the bytes of the cut.
        headers += [("Content-Encoding", name), ("Content-Length", str(len(body))), ("ETag", f"W/{tag}")]
    start_response(status, headers)
    return [body]


class Site:
    """The WSGI application: cuts below /fonts, the package below /package, and the pages."""

    def __init__(self, cuts: WSGIApplication, package: str) -> None:
        self.cuts = cuts
        self.folders = {"package": package, "": HERE}

    def __call__(self, environ: WSGIEnvironment, start_response: StartResponse) -> Iterable[bytes]:
        folder, _, name = environ["PATH_INFO"].lstrip("/").rpartition("/")
        if folder == "fonts":
            wsgiref.util.shift_path_info(environ)
            return compressed(environ, start_response, self.cuts)
        path = os.path.join(self.folders.get(folder, os.devnull), name or "index.html")
        if not os.path.isfile(path):
            start_response("404 Not Found", [("Content-Type", "text/plain")])
            return [b"there is no such file\n"]
        with open(path, "rb") as opened:
            data = opened.read()
        start_response("200 OK", [("Content-Type", mimetypes.guess_type(path)[0] or "application/octet-stream")])
        return [data]


def main() -> None:
    parser = argparse.ArgumentParser(description="Serves the pages of this folder on loopback.")
    parser.add_argument("--port", type=int, default=8000, help="8000 by default; 0 takes any free one")
    parser.add_argument("--package", help="the folder of the package for browsers")
    words = parser.parse_args()
    say_what_lacks()
    mimetypes.add_type("text/javascript", ".js")
    mimetypes.add_type("application/wasm", ".wasm")
    package = words.package or os.path.dirname(built("bindings", "web", "build")[0])
    signal.signal(signal.SIGTERM, lambda *_: sys.exit())  # the folder below is removed then too
    with tempfile.TemporaryDirectory() as folder:
        site = Site(cuts_of(folder), package)
        with wsgiref.simple_server.make_server("127.0.0.1", words.port, site, Server, Quiet) as server:
            print(f"http://127.0.0.1:{server.server_port}/", flush=True)
            server.serve_forever()


if __name__ == "__main__":
    with contextlib.suppress(KeyboardInterrupt):
        main()
