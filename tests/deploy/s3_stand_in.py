"""A stand-in for S3, over plain HTTP on the loopback interface, as far as Terraform's backend `s3`
needs it: objects by their paths, in memory, a list of the objects with a prefix, and an object that
is written only if it doesn't exist. Signatures aren't checked."""
import contextlib
import http.server
import threading
import urllib.parse
from xml.sax.saxutils import escape

from folders import LOOPBACK

BUCKET = "states"
XML = '<?xml version="1.0" encoding="UTF-8"?>'


class Requests(http.server.BaseHTTPRequestHandler):
    protocol_version = "HTTP/1.1"

    def reply(self, status, body=b""):
        self.send_response(status)
        self.send_header("Content-Length", str(len(body)))
        self.end_headers()
        self.wfile.write(b"" if self.command == "HEAD" else body)

    def key(self):
        """Returns the requested object's key, and the query."""
        target = urllib.parse.urlsplit(self.path)
        return urllib.parse.unquote(target.path).removeprefix(f"/{BUCKET}").lstrip("/"), dict(urllib.parse.parse_qsl(target.query))

    def do_GET(self):
        key, query = self.key()
        objects = self.server.objects
        if "list-type" in query:
            found = "".join(f"<Contents><Key>{escape(name)}</Key></Contents>" for name in sorted(objects) if name.startswith(query["prefix"]))
            return self.reply(200, f"{XML}<ListBucketResult><IsTruncated>false</IsTruncated>{found}</ListBucketResult>".encode())
        if key in objects:
            return self.reply(200, objects[key])
        return self.reply(404, f"{XML}<Error><Code>NoSuchKey</Code></Error>".encode())

    do_HEAD = do_GET

    def do_PUT(self):
        key, body = self.key()[0], self.rfile.read(int(self.headers["Content-Length"]))
        if self.headers["If-None-Match"] == "*" and key in self.server.objects:
            return self.reply(412, f"{XML}<Error><Code>PreconditionFailed</Code></Error>".encode())
        self.server.objects[key] = body
        return self.reply(200)

    def do_DELETE(self):
        self.server.objects.pop(self.key()[0], None)
        return self.reply(204)

    def log_message(self, *words):
        """Logs nothing."""


@contextlib.contextmanager
def s3(port):
    """Serves objects at a port. Yields them by their paths."""
    server = http.server.ThreadingHTTPServer((LOOPBACK, port), Requests)
    server.daemon_threads, server.objects = True, {}
    threading.Thread(target=server.serve_forever, daemon=True).start()
    try:
        yield server.objects
    finally:
        server.shutdown()
        server.server_close()
