"""Requests with heads of every kind, byte by byte."""
from stdio_model import refusal_text


GET = b"GET /state/a HTTP/1.1\r\nHost: h\r\n\r\n"
NO_STATE = refusal_text("NoState")


def request(method, more=b"", body=None, target=b"/state/a", version=1, host=b"Host: h\r\n"):
    """Returns the bytes of a request, with additional lines of its head. Its length is given if it
    has a body, even an empty one."""
    length = b"" if body is None else b"Content-Length: %d\r\n" % len(body)
    line = b"%s %s HTTP/1.%d\r\n" % (method, target, version)
    return line + host + length + more + b"\r\n" + (body or b"")


EMPTY, ABC = b"1B2M2Y8AsgTpgAmY7PhCfg==", b"kAFQmDzST7DWlj99KOF/cg=="


def digest(text):
    """Returns the line of a head with a digest."""
    return b"Content-MD5: %s\r\n" % text
