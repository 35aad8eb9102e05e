#!/usr/bin/env python3
"""http_front.py PROGRAM SCHEMA DATA [PORT]: an HTTP front to try the program with, on this machine.

It is for trying: nothing of it is proved, and it has no users, no TLS, no limit on time or memory. It
starts the program twice, for answers and, with --plain, for plain texts; each takes a line at a time.

GET / is a page to try requests on. POST /graphql answers a request, POST /plain tells its plain text.
A body is a request of GraphQL over HTTP: a JSON object in UTF-8, with `query` and, where needed,
`operationName` and `variables`. With blanks for line breaks it is the line that the program reads.
All replies but the page are JSON, and the errors of the front are {"errors":[{"message":..}]}:

  200  the program's answer: data, errors or both; or the plain text
  400  the body is no JSON that Python reads; or it is no request, and the program's answer says so
  404  the path is another one
  405  the path has another method, which the header Allow tells
  411  the length of the body is not given
  413  the body is longer than a line may be
  415  the body is not application/json in UTF-8
  503  the program has ended, now or before; the message has its status
"""

import contextlib
import http.server
import json
import pathlib
import subprocess
import sys
import threading

LINE_LIMIT = 65_536
METHODS = {"/": "GET, HEAD", "/graphql": "POST", "/plain": "POST"}


def refusal(message):
    """An answer of one error."""
    return json.dumps({"errors": [{"message": message}]}, separators=(",", ":")).encode() + b"\n"


class Program:
    """A running program, which answers a line by a line."""

    def __init__(self, *words):
        self.process = subprocess.Popen(words, stdin=subprocess.PIPE, stdout=subprocess.PIPE)
        self.lock = threading.Lock()

    def reply(self, line):
        """The status and the answer for a line."""
        with self.lock:
            try:
                self.process.stdin.write(line + b"\n")
                self.process.stdin.flush()
                answer = self.process.stdout.readline()
            except OSError:
                answer = b""
            if not answer.endswith(b"\n"):
                return 503, refusal(f"The program has ended with status {self.process.wait()}")
        return 400 if answer == refusal("Line is not a request") else 200, answer


class Handler(http.server.BaseHTTPRequestHandler):
    """Replies to a request of HTTP, by `reply` whatever its method (do_GET and so on)."""

    def __getattr__(self, name):
        return self.reply if name.startswith("do_") else super().__getattribute__(name)

    def reply(self):
        told = self.headers["Content-Length"] or ""
        length = int(told) if told.isdecimal() and len(told) < 19 else None
        # A body that is too long is read too, up to 16 MB: a reply may be lost where it is not.
        body = self.rfile.read(min(length or 0, 16_000_000))
        status, answer = self.of_request(length, body)
        self.send_response(status)
        kind = "text/html" if (self.path, status) == ("/", 200) else "application/json"
        self.send_header("Content-Type", f"{kind}; charset=utf-8")
        self.send_header("Content-Length", str(len(answer)))
        if status == 405:
            self.send_header("Allow", METHODS[self.path])
        self.end_headers()
        if self.command != "HEAD":
            self.wfile.write(answer)

    def of_request(self, length, body):
        """The status and the body of the reply."""
        if self.path not in METHODS:
            return 404, refusal(f"The paths here: {', '.join(METHODS)}")
        if self.command not in METHODS[self.path].split(", "):
            return 405, refusal(f"The methods here: {METHODS[self.path]}")
        if self.path == "/":
            return 200, pathlib.Path(__file__).with_suffix(".html").read_bytes()
        media = self.headers.get_content_type(), self.headers.get_content_charset("utf-8")
        if media != ("application/json", "utf-8"):
            return 415, refusal("The body is not application/json in UTF-8")
        if length is None:
            return 411, refusal("The length of the body is not given")
        if length > LINE_LIMIT:
            return 413, refusal(f"The body is longer than {LINE_LIMIT} bytes")
        try:
            json.loads(body.decode())
        except (ValueError, RecursionError):
            return 400, refusal("The body is no JSON")
        return self.server.programs[self.path].reply(b" ".join(body.splitlines()))


def main():
    if len(sys.argv) not in (4, 5):
        sys.exit(__doc__)
    words, port = sys.argv[1:4], int(sys.argv[4]) if sys.argv[4:] else 8080
    programs = {"/graphql": Program(*words), "/plain": Program(*words, "--plain")}
    if {it.reply(b'{"query":"{ __typename }"}')[0] for it in programs.values()} != {200}:
        sys.exit("the program does not answer")
    server = http.server.ThreadingHTTPServer(("127.0.0.1", port), Handler)
    server.socket.listen(128)  # so many clients may wait for a thread; else five, and more are reset
    server.programs = programs
    print(f"for trying, unproved: http://127.0.0.1:{port}/", file=sys.stderr)
    with contextlib.suppress(KeyboardInterrupt):
        server.serve_forever()


main()
