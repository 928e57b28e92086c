"""A plain model of a conversation over a new table: what `tfstated stdio` writes for a list of
bytes, and its status.

It is written from docs/MODEL.md and docs/PROTOCOL.md: GET, POST, DELETE, LOCK and UNLOCK of a
state, and queries for the impact of changes. It looks at all of the bytes together, never at how
they were cut, and never runs out of memory."""
import base64
import hashlib
import json
import re
from urllib.parse import unquote_to_bytes

from impact_model import QueryFault, impact, instances_of, json_text

MAX_HEAD, MAX_LINE_FEEDS, MAX_FIELDS = 16384, 66, 64
MAX_BODY = 16777216
MAX_CHUNK_LINE, MAX_CHUNKS, MAX_TRAILER = 1024, 65536, 16384
MAX_NAMES, MAX_ENTRIES, MAX_NESTING = 1024, 65536, 127
MAX_LOCK_INFO, MAX_IDENTIFIER = 65536, 256
MAX_INSTANCES = 4096

PHRASES = {
    200: "OK", 400: "Bad Request", 404: "Not Found", 405: "Method Not Allowed", 409: "Conflict", 413: "Content Too Large",
    423: "Locked", 431: "Request Header Fields Too Large", 501: "Not Implemented", 503: "Service Unavailable",
    507: "Insufficient Storage",
}
STATUSES = {
    "HeadTooLarge": 431, "BadHead": 400, "NoHost": 400, "BadLength": 400, "TransferCoding": 501, "BodyTooLarge": 413, "NoRoute": 404,
    "MethodNotAllowed": 405, "BadName": 400, "BadDigest": 400, "BadChunk": 400, "BadLockInfo": 400, "BadState": 400, "TooManyInstances": 413, "LockLost": 409,
    "LineageDiffers": 409, "SerialTooLow": 409, "SerialReused": 409, "NoState": 404, "NoAddress": 400,
    "TooManyAddresses": 400, "UnknownAddress": 404, "TableFull": 507, "JournalFull": 507,
    "OutOfMemory": 503,
}
METHODS = ["DELETE", "GET", "LOCK", "POST", "UNLOCK"]
QUERY_METHODS = ["GET"]
CLEAN, ASKED, CUT, REFUSED = 0, 0, 3, 4

TOKEN = rb"[!#$%&'*+\-.^_`|~0-9A-Za-z]+"
REQUEST_LINE = re.compile(rb"(" + TOKEN + rb") ([^\x00-\x20\x7f]+) HTTP/1\.([01])\r?\n")
CHUNK_LINE = re.compile(rb"([0-9A-Fa-f]{1,16})[ \t]*(?:;[^\r\n]*)?\r\n")
FIELD_LINE = re.compile(rb"(" + TOKEN + rb"):[ \t]*([^\x00-\x08\x0a-\x1f\x7f]*)\r?\n")
NAME = re.compile(r"[A-Za-z0-9_.-]{1,64}")
PIECES = re.compile(r'(?:[^\[\]]|\[[0-9]+\]|\["(?:[^"\\]|\\.)*"\])*', re.DOTALL)


def reply_text(status, body=b"", close=False, allow=None):
    """Returns the bytes of a reply."""
    lines = [f"HTTP/1.1 {status} {PHRASES[status]}"]
    lines += [f"Allow: {allow}"] if allow else []
    lines += ["Connection: close"] if close else []
    lines += ["Content-Type: application/json"] if body else []
    lines += [f"Content-Length: {len(body)}", "", ""]
    return "\r\n".join(lines).encode() + body


def refusal_text(name, close=False, methods=METHODS):
    """Returns the bytes of a refusal's reply; the methods are those of the route."""
    allow = ", ".join(methods) if name == "MethodNotAllowed" else None
    return reply_text(STATUSES[name], b'{"error":"%s"}' % name.encode(), close, allow)


DONE = reply_text(200)


class Unfinished(Exception):
    """More bytes are needed."""


class Refused(Exception):
    """The name of a refusal."""


class NotAllowed(Exception):
    """The methods of a route that lacks the request's."""


class Locked(Exception):
    """The lock information, in bytes, of a holder whose ID the act doesn't have."""


def head_of(data):
    """Returns the length of the skipped lines, and the head."""
    skipped = re.match(rb"(?:\r?\n)*", data).end()
    end = re.compile(rb"\n\r?\n").search(data, skipped)
    if end is None or end.end() > MAX_HEAD:
        raise Refused("HeadTooLarge") if len(data) >= MAX_HEAD else Unfinished
    head = data[skipped : end.end()]
    if head.count(b"\n") > MAX_LINE_FEEDS:
        raise Refused("HeadTooLarge")
    return skipped, head


class Request:
    """A request: the contents of its head, and its body."""

    def __init__(self, method, target, body=b"", version=1, fields=()):
        self.method, self.target, self.body = method, target, body
        self.version, self.fields = version, fields

    def values(self, name):
        """Returns the values of the fields of one name, without spaces and tabs at both ends."""
        return [value.strip(b" \t") for own, value in self.fields if own == name]

    def asks_to_close(self):
        """Returns true if the conversation ends after the reply."""
        parts = [part.strip(b" \t").lower() for value in self.values(b"connection") for part in value.split(b",")]
        return self.version == 0 or b"close" in parts

    def has_good_digest(self):
        """Returns true if there is no digest, or exactly the right one."""
        values = self.values(b"content-md5")
        return not values or values == [base64.b64encode(hashlib.md5(self.body).digest())]


def request_of(head):
    """Returns the request of a head."""
    line = REQUEST_LINE.match(head)
    if line is None:
        raise Refused("BadHead")
    try:
        method, target = line[1].decode(), line[2].decode()
    except UnicodeDecodeError:
        raise Refused("BadHead") from None
    fields, at = [], line.end()
    while head[at:] not in (b"\n", b"\r\n"):
        field = FIELD_LINE.match(head, at)
        if field is None or len(fields) == MAX_FIELDS:
            raise Refused("BadHead")
        fields.append((field[1].lower(), field[2]))
        at = field.end()
    return Request(method, target, version=int(line[3]), fields=fields)


def require_host(request):
    """Refuses a request of version 1.1 without exactly one host, and one of version 1.0 with more
    than one."""
    hosts = len(request.values(b"host"))
    if hosts > 1 or hosts == 0 and request.version == 1:
        raise Refused("NoHost")


def is_chunked(request):
    """Returns true if the body comes in chunks. Refuses fields that conflict, are invalid or aren't
    known."""
    lengths, codings = request.values(b"content-length"), request.values(b"transfer-encoding")
    if len(lengths) > 1 or lengths and codings or any(not re.fullmatch(rb"[0-9]+", value) for value in lengths):
        raise Refused("BadLength")
    if codings and (request.version == 0 or len(codings) > 1 or codings[0].lower() != b"chunked"):
        raise Refused("TransferCoding")
    return bool(codings)


def length_of(request):
    """Returns the length of a body that doesn't come in chunks."""
    values = request.values(b"content-length")
    digits = values[0].lstrip(b"0") if values else b""
    if len(digits) > len(str(MAX_BODY)) or int(digits or b"0") > MAX_BODY:
        raise Refused("BodyTooLarge")
    return int(digits or b"0")


def chunk_size(data, at):
    """Returns the size in the chunk line at an offset, and the offset after the line."""
    end = data.find(b"\n", at, at + MAX_CHUNK_LINE) + 1
    if not end:
        raise Refused("BadChunk") if len(data) >= at + MAX_CHUNK_LINE else Unfinished
    line = CHUNK_LINE.fullmatch(data, at, end)
    if line is None:
        raise Refused("BadChunk")
    return int(line[1], 16), end


def end_of_trailer(data, at):
    """Returns the offset after the trailer at an offset."""
    end = re.compile(rb"(?:[^\n]*\n)*?\r?\n").match(data, at)
    if end is None or end.end() > at + MAX_TRAILER:
        raise Refused("BadChunk") if len(data) >= at + MAX_TRAILER else Unfinished
    return end.end()


def body_in_chunks(data, at):
    """Returns the body whose chunks begin at an offset, and the offset after it."""
    chunks, total = [], 0
    while True:
        size, at = chunk_size(data, at)
        total += size
        if total > MAX_BODY:
            raise Refused("BodyTooLarge")
        if size == 0:
            return b"".join(chunks), end_of_trailer(data, at)
        if len(chunks) == MAX_CHUNKS:
            raise Refused("BadChunk")
        chunks.append(data[at : at + size])
        at += size + 2
        if len(data) < at:
            raise Unfinished
        if data[at - 2 : at] != b"\r\n":
            raise Refused("BadChunk")


def take(data):
    """Returns the request that the bytes begin with, and its length in bytes."""
    skipped, head = head_of(data)
    request = request_of(head)
    require_host(request)
    start = skipped + len(head)
    if is_chunked(request):
        request.body, end = body_in_chunks(data, start)
        return request, end
    end = start + length_of(request)
    if len(data) < end:
        raise Unfinished
    request.body = data[start:end]
    return request, end


def refuse_constant(text):
    raise ValueError(text)


def float_of(text):
    number = float(text)
    if number in (float("inf"), float("-inf")):
        raise ValueError(text)
    return number


def whole_of(text):
    """Returns a number in a text. Digits alone are a whole number; any other number, including one
    of very many digits, is a float."""
    return int(text) if text.isdigit() and len(text) <= 20 else float_of(text)


class Members(list):
    """The members of an object in order, including any that a later one of the same name
    replaces."""


def nesting_of(value):
    """Returns how deep arrays and objects nest."""
    if not isinstance(value, list):
        return 0
    parts = [part for _, part in value] if isinstance(value, Members) else value
    return 1 + max(map(nesting_of, parts), default=0)


def json_of(body):
    """Returns the JSON value of a list of bytes. Raises ValueError if there is none."""
    text = body.decode("utf-8")
    numbers = {"parse_constant": refuse_constant, "parse_float": float_of, "parse_int": whole_of}
    value = json.loads(text, object_pairs_hook=Members, **numbers)
    json.dumps(value, ensure_ascii=False).encode("utf-8")
    if nesting_of(value) > MAX_NESTING:
        raise ValueError("nesting")
    return value


def members_of(body, refusal):
    """Returns the members of the object in the bytes; of a repeated name, the last member."""
    try:
        top = json_of(body)
    except (ValueError, RecursionError):
        raise Refused(refusal) from None
    if not isinstance(top, Members):
        raise Refused(refusal)
    return dict(top)


def present(members, name, kinds, wanted=lambda value: True):
    """Returns the value of a member, of one of these types, or None if it is absent or null."""
    value = members.get(name)
    if value is not None and (type(value) not in kinds or not wanted(value)):
        raise Refused("BadState")
    return value


def reads_in_pieces(text):
    """Returns true if a text is a sequence of characters and keys."""
    return PIECES.fullmatch(text) is not None


def count_instances(resource):
    """Returns the number of instances of a resource. Refuses an invalid resource or instance."""
    if type(resource) is not Members:
        raise Refused("BadState")
    members = dict(resource)
    present(members, "module", [str], reads_in_pieces)
    if members.get("mode") not in ("managed", "data") or not all(
            isinstance(members.get(name), str) and members[name] for name in ("type", "name")):
        raise Refused("BadState")
    instances = present(members, "instances", [list]) or []
    for instance in instances:
        if type(instance) is not Members:
            raise Refused("BadState")
        own = dict(instance)
        present(own, "index_key", [int, str], lambda key: isinstance(key, str) or key < 2**64)
        present(own, "deposed", [str])
        for text in present(own, "dependencies", [list]) or []:
            if not isinstance(text, str) or not reads_in_pieces(text):
                raise Refused("BadState")
    return len(instances)


def document_of(body):
    """Returns the lineage, the serial and the bytes of the document in the bytes."""
    top = members_of(body, "BadState")
    version, serial, lineage = top.get("version"), top.get("serial"), top.get("lineage")
    if type(version) is not int or version != 4:
        raise Refused("BadState")
    if type(serial) is not int or serial >= 2**64:
        raise Refused("BadState")
    if not isinstance(lineage, str) or not lineage:
        raise Refused("BadState")
    if sum(map(count_instances, present(top, "resources", [list]) or [])) > MAX_INSTANCES:
        raise Refused("TooManyInstances")
    return lineage, serial, body


def bounded(identifier):
    """Returns the identifier, which has at most 256 bytes."""
    if len(identifier.encode()) > MAX_IDENTIFIER:
        raise Refused("BadLockInfo")
    return identifier


def locked_by(body):
    """Returns the identifier of the lock information in the bytes."""
    if len(body) > MAX_LOCK_INFO:
        raise Refused("BadLockInfo")
    identifier = members_of(body, "BadLockInfo").get("ID")
    if not isinstance(identifier, str) or not identifier:
        raise Refused("BadLockInfo")
    return bounded(identifier)


def decoded(part):
    """Returns a name or a value of a query as text."""
    return unquote_to_bytes(part.replace("+", " ")).decode("utf-8", "replace")


def values_in(query, wanted):
    """Returns the values of the pairs of one name in a query, in order."""
    pairs = [piece.partition("=") for piece in query.split("&") if piece]
    return [decoded(value) for name, _, value in pairs if decoded(name) == wanted]


def identifier_in(query):
    """Returns the identifier in a query; none if it is missing or empty."""
    values = values_in(query, "ID")
    return bounded(values[0]) or None if values else None


def act_of(method, query, body):
    """Returns the act that a request asks for: its identifier or none, and its content, which is
    the information of a lock or the document of a push."""
    if method == "LOCK":
        return locked_by(body), body
    if method == "UNLOCK" and body:
        return locked_by(body), None
    identifier = identifier_in(query)
    return identifier, document_of(body) if method == "POST" else None


class Table:
    """A table: the names that had an accepted act, their holders (identifier and bytes) and their
    states, and the number of entries."""

    def __init__(self):
        self.names = set()
        self.holders = {}
        self.states = {}
        self.entries = 0

    def judge_by_lock(self, method, name, identifier, carried):
        """Refuses an act because of the holder of its name."""
        if name not in self.holders:
            if method in ("POST", "DELETE") and identifier is not None:
                raise Refused("LockLost")
            return
        held_by, held = self.holders[name]
        forced = method == "UNLOCK" and identifier is None
        if not forced and (carried != held if method == "LOCK" else identifier != held_by):
            raise Locked(held)

    def judge_by_state(self, name, document):
        """Refuses a push because of the state of its name."""
        if name not in self.states:
            return
        lineage, serial, body = document
        old_lineage, old_serial, old_body = self.states[name]
        if lineage != old_lineage:
            raise Refused("LineageDiffers")
        if serial < old_serial:
            raise Refused("SerialTooLow")
        if serial == old_serial and body != old_body:
            raise Refused("SerialReused")

    def change(self, method, name, query, body):
        """Accepts a change, or refuses it."""
        self.take(method, name, *act_of(method, query, body))

    def take(self, method, name, identifier, carried):
        """Accepts an act, or refuses it."""
        self.judge_by_lock(method, name, identifier, carried)
        if method == "POST":
            self.judge_by_state(name, carried)
        if name not in self.names and len(self.names) == MAX_NAMES:
            raise Refused("TableFull")
        if self.entries == MAX_ENTRIES:
            raise Refused("JournalFull")
        self.names.add(name)
        self.entries += 1
        if method == "LOCK":
            self.holders[name] = identifier, carried
        elif method == "UNLOCK":
            self.holders.pop(name, None)
        elif method == "POST":
            self.states[name] = carried
        else:
            self.states.pop(name, None)

    def body(self, name):
        """Returns the state of a name."""
        if name not in self.states:
            raise Refused("NoState")
        return self.states[name][2]

    def impact(self, name, kind, query):
        """Returns the JSON text that answers a query."""
        top = dict(json_of(self.body(name)))
        try:
            chosen = impact(kind, values_in(query, "of"), instances_of(top))
        except QueryFault as fault:
            raise Refused(str(fault)) from None
        return json_text({"instances": chosen, "position": self.entries, "serial": top["serial"]}).encode()

    def answer(self, request):
        """Returns the body of the reply to a request that isn't refused."""
        path, _, query = request.target.partition("?")
        route = re.fullmatch(r"/state/(?P<name>[^/]+)|/impact/(?P<asked>[^/]+)/(?P<kind>any|all)", path)
        if route is None:
            raise Refused("NoRoute")
        methods = QUERY_METHODS if route["kind"] else METHODS
        if request.method not in methods:
            raise NotAllowed(methods)
        name = route["asked"] or route["name"]
        if not NAME.fullmatch(name):
            raise Refused("BadName")
        if not request.has_good_digest():
            raise Refused("BadDigest")
        if route["kind"]:
            return self.impact(name, route["kind"], query)
        if request.method == "GET":
            return self.body(name)
        self.change(request.method, name, query, request.body)
        return b""

    def reply(self, request):
        """Returns the bytes of the reply to a request; HEAD gets no body."""
        text = self.whole_reply(request, request.asks_to_close())
        return text[: text.index(b"\r\n\r\n") + 4] if request.method == "HEAD" else text

    def whole_reply(self, request, close):
        """Returns the bytes of the reply to a request, with its body."""
        try:
            return reply_text(200, self.answer(request), close)
        except Locked as locked:
            return reply_text(423, locked.args[0], close)
        except NotAllowed as refusal:
            return refusal_text("MethodNotAllowed", close, refusal.args[0])
        except Refused as refusal:
            return refusal_text(str(refusal), close)


def replies_to(data):
    """Returns the replies to these bytes in order, and the program's status."""
    table, replies = Table(), []
    while data:
        try:
            request, used = take(data)
        except Unfinished:
            return replies, CUT
        except Refused as refusal:
            return [*replies, refusal_text(str(refusal), close=True)], REFUSED
        data = data[used:]
        replies.append(table.reply(request))
        if request.asks_to_close():
            return replies, ASKED
    return replies, CLEAN


def conversation(data):
    """Returns the output for these bytes, and the program's status."""
    replies, status = replies_to(data)
    return b"".join(replies), status
