"""A request of HTTP, and what is answered: one request for each connection, a GET of /metrics or /."""
import io
from http.server import BaseHTTPRequestHandler

# How long a request is waited for, how long its response may take to be read, and how long its head is at most.
REQUEST_SECONDS = 1
RESPONSE_SECONDS = 10
LONGEST_HEAD = 16_384
PLAIN, METRICS = "text/plain; charset=utf-8", "text/plain; version=0.0.4; charset=utf-8"


class Request(BaseHTTPRequestHandler):
    """A request whose head came, as the library reads it, and the octets of its response: none yet if it asks for the metrics."""

    protocol_version, default_request_version = "HTTP/1.1", "HTTP/1.0"

    def __init__(self, head):
        self.rfile, self.wfile, self.is_of_metrics = io.BytesIO(head), io.BytesIO(), False
        self.handle_one_request()

    def do_GET(self):
        if self.path in ("/metrics", "/"):
            self.is_of_metrics = True
        else:
            self.answer(404, "the metrics are at /metrics\n")

    def refuse(self):
        self.answer(405, "GET alone is answered\n")

    do_HEAD = do_POST = do_PUT = do_DELETE = do_CONNECT = do_OPTIONS = do_TRACE = do_PATCH = refuse

    def send_error(self, code, message=None, explain=None):
        """What the library answers to what is no request."""
        self.answer(code, f"{self.responses[code][0]}\n")

    def answer(self, status, text, kind=PLAIN):
        octets = text if isinstance(text, bytes) else text.encode()
        self.send_response_only(status)
        for name, value in (("Content-Type", kind), ("Content-Length", str(len(octets))), ("Connection", "close")):
            self.send_header(name, value)
        self.end_headers()
        self.wfile.write(octets)

    def log_message(self, *_):
        """Scrapes are many: nothing is logged of them."""

    def response(self):
        return self.wfile.getvalue()


def is_whole(octets):
    """Whether the empty line behind the head of a request is there."""
    return any(end in octets for end in (b"\n\r\n", b"\n\n"))


def response_of(status, text, kind=PLAIN):
    """The octets of a response that is of no request of its own."""
    made = Request(b"GET / HTTP/1.1\n\n")
    made.answer(status, text, kind)
    return made.response()


INCOMPLETE = response_of(400, f"no request of HTTP in {REQUEST_SECONDS} second\n")


def refusal_of(head):
    """What is answered to a request that is none of the metrics, by its head; None to one of them."""
    request = Request(head)
    return None if request.is_of_metrics else request.response() or INCOMPLETE


def metrics_by(octets, status):
    """What is answered by what `rad_proxyctl metrics` has printed, and by how it ended."""
    if status == 0:
        return response_of(200, octets, METRICS)
    last = octets.rstrip(b"\n").rpartition(b"\n")[2]
    return response_of(503, last.removeprefix(b"rad_proxyctl: ") + b"\n")
