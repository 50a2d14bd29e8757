"""The page of a server, as the sources have it, and a stand-in server that shows it."""

import base64
import hashlib
import http.server
import json
import os
import re
import threading

from lib.programs import TOP

SOURCES = os.path.join(TOP, "crates", "rme_http", "src")


def constant(file, name):
    """The text of a constant in a file of the crate."""
    with open(os.path.join(SOURCES, file), encoding="utf-8") as source:
        text = source.read()
    long = re.search(rf'const {name}: &str =\s+r##"(.*?)"##;', text, re.S)
    if long:
        return long[1]
    return re.search(rf'const {name}: &str =\s+"(.*?)";', text, re.S)[1].encode().decode("unicode_escape")


def style():
    return constant("page_style.rt", "PAGE_STYLE")


def script():
    return constant("page_script.rt", "PAGE_SCRIPT")


def page():
    front, body, end = (constant("page.rt", name) for name in ("PAGE_FRONT", "PAGE_BODY", "PAGE_END"))
    return front + style() + body + script() + end


def policy():
    return constant("page.rt", "PAGE_POLICY")


def sum_of(text):
    """The checksum of a style or a script, as a policy has it."""
    return "sha256-" + base64.b64encode(hashlib.sha256(text.encode()).digest()).decode()


class StandIn:
    """A server that shows the page, and answers `status` by a function from the name of a space."""

    def __init__(self, status, port=0):
        class Handler(http.server.BaseHTTPRequestHandler):
            def do_GET(self):
                path, _, query = self.path.partition("?")
                told = status(query.removeprefix("space=")) if path == "/status" else None
                if path == "/":
                    self.answer(200, "text/html; charset=utf-8", page(), policy())
                elif told is None:
                    self.answer(404, "text/plain", "404 Not Found\n", "default-src 'none'")
                else:
                    self.answer(200, "application/json", json.dumps(told), "default-src 'none'")

            def answer(self, code, kind, text, policy_text):
                self.send_response(code)
                self.send_header("Content-Type", kind)
                self.send_header("Content-Length", str(len(text.encode())))
                self.send_header("Content-Security-Policy", policy_text)
                self.send_header("Cache-Control", "no-store")
                self.end_headers()
                self.wfile.write(text.encode())

            def log_message(self, *_):
                pass

        self.server = http.server.ThreadingHTTPServer(("127.0.0.1", port), Handler)
        self.port = self.server.server_address[1]
        threading.Thread(target=self.server.serve_forever, daemon=True).start()

    def close(self):
        self.server.shutdown()
        self.server.server_close()
