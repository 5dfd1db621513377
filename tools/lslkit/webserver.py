"""Serves the page to this machine, and to no other."""
import functools
import http.server
import re
import sys
import urllib.parse

from . import kit, webpage
from .places import text_of

HOST, PORT, MOST_PORT = "127.0.0.1", 8000, 65535
# The names by which this machine calls itself. A page of another name that leads here gets nothing.
OWN_NAMES = ("localhost", "127.0.0.1", "[::1]")


@functools.lru_cache(maxsize=None)
def policy():
    """What the page may load, as it says itself."""
    return re.search(r'http-equiv="Content-Security-Policy" content="(.*?)"', text_of("page", "index.html"))[1]


class Handler(http.server.SimpleHTTPRequestHandler):
    """Serves files, with the types that modules want, and none from a store of the browser's."""

    extensions_map = {
        **http.server.SimpleHTTPRequestHandler.extensions_map,
        ".js": "text/javascript",
        ".wasm": "application/wasm",
    }

    def send_head(self):
        host = re.sub(r":\d+$", "", self.headers.get("Host", ""))
        if host not in OWN_NAMES:
            self.send_error(403, "This server is for this machine alone")
            return None
        if "\0" in urllib.parse.unquote(self.path):
            self.send_error(404, "File not found")
            return None
        return super().send_head()

    def end_headers(self):
        self.send_header("Cache-Control", "no-store")
        self.send_header("Content-Security-Policy", policy())
        self.send_header("X-Content-Type-Options", "nosniff")
        super().end_headers()

    def log_message(self, *_):
        pass


class Server(http.server.ThreadingHTTPServer):
    """A server whose clients may go away at any time."""

    def handle_error(self, request, client_address):
        if not isinstance(sys.exc_info()[1], ConnectionError):
            super().handle_error(request, client_address)


def opened(port):
    """A server at a port, or at a free one for 0."""
    if port > MOST_PORT:
        raise kit.NotMade(f"a port is a number from 0 to {MOST_PORT}, and not {port}")
    try:
        return Server((HOST, port), functools.partial(Handler, directory=webpage.FOLDER))
    except OSError as error:
        raise kit.NotMade(f"port {port} can't be taken: {error.strerror}; name another one") from error
