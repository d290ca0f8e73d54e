#!/usr/bin/env python3
"""Python's `http.server` before the plain hub: it says where it listens, as `gazhub serve` does, and ends a connection behind 1,000 requests.

    bench/server.py [STORE]   over sqlite3 in the file STORE, where one is named
"""
import http.server
import io
import sys

import hub
import hub_sqlite

EACH = 1_000  # requests of a connection


class Handler(http.server.BaseHTTPRequestHandler):
    protocol_version = "HTTP/1.1"
    plain = None
    left = EACH

    def reply(self):
        self.left -= 1
        body = self.rfile.read(int(self.headers.get("Content-Length", 0)))
        head = f"{self.command} {self.path} HTTP/1.1\r\nContent-Length: {len(body)}\r\n\r\n".encode()
        sink = io.BytesIO()
        hub.answer(io.BytesIO(head + body), sink, most=self.left + 1, hub=self.plain)
        self.close_connection = self.left == 0
        self.wfile.write(sink.getvalue())

    do_GET = do_POST = reply

    def log_message(self, *_words):
        pass


def serve(plain):
    Handler.plain = plain
    with http.server.HTTPServer(("127.0.0.1", 0), Handler) as server:
        print(f"listening 127.0.0.1:{server.server_port}", flush=True)
        server.serve_forever()


if __name__ == "__main__":
    serve(hub_sqlite.StoredHub(sys.argv[1]) if sys.argv[1:] else hub.Hub())
