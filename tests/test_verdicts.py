"""Drives the built program over pipes: the answers of a workspace to acts, one after another, and
which texts are names. All is worked out by hand."""
import pytest

from checking import S1, S2
from stdio_model import refusal_text
from talks import (A, A2, B, LINEAGE_DIFFERS, LOCK_LOST, LOCKED_BY_A, NINE, NO_STATE, OK, ZERO,
                   expect_talk, showing)


pytestmark = pytest.mark.usefixtures("tfstated")


def test_identifiers_of_locks_are_compared_byte_by_byte():
    expect_talk([
        ("LOCK", "/state/a", A, OK),
        ("UNLOCK", "/state/a?ID=B", b"", LOCKED_BY_A),
        ("UNLOCK", "/state/a?ID=a", b"", LOCKED_BY_A),
        ("POST", "/state/a?ID=a", S1, LOCKED_BY_A),
        ("DELETE", "/state/a?ID=B", b"", LOCKED_BY_A),
        ("LOCK", "/state/a", B, LOCKED_BY_A),
        ("UNLOCK", "/state/a?ID=A", b"", OK),
        ("LOCK", "/state/a", B, OK),
    ])


def test_locks_and_unlocks_leave_the_state():
    expect_talk([
        ("GET", "/state/a", b"", NO_STATE),
        ("POST", "/state/a", S1, OK),
        ("LOCK", "/state/a", A, OK),
        ("GET", "/state/a", b"", showing(S1)),
        ("POST", "/state/a?ID=A", S2, OK),
        ("UNLOCK", "/state/a", b"", OK),
        ("GET", "/state/a", b"", showing(S2)),
        ("DELETE", "/state/a", b"", OK),
        ("DELETE", "/state/a", b"", OK),
        ("GET", "/state/a", b"", NO_STATE),
    ])


def test_the_lock_is_looked_at_before_the_state():
    expect_talk([
        ("POST", "/state/a", S2, OK),
        ("POST", "/state/a?ID=A", ZERO, LOCK_LOST),
        ("POST", "/state/a", ZERO, LINEAGE_DIFFERS),
        ("POST", "/state/a", NINE, LINEAGE_DIFFERS),
        ("LOCK", "/state/a", A, OK),
        ("POST", "/state/a", ZERO, LOCKED_BY_A),
        ("POST", "/state/a?ID=A", ZERO, LINEAGE_DIFFERS),
        ("POST", "/state/a?ID=A", S1, refusal_text("SerialTooLow")),
        ("GET", "/state/a", b"", showing(S2)),
        ("LOCK", "/state/a", A2, LOCKED_BY_A),
    ])


@pytest.mark.parametrize("name, reply", [
    *[(name, NO_STATE) for name in ("a", "Z", "0", "_", "-", ".", "..", "prod-eu_1.A", "default")],
    *[(name, refusal_text("BadName")) for name in (
        "%20", "a%20b", "a%2Fb", "a%2520b", "a:b", "a%0A", "%00", "%C3%A9", "a@", "a[", "a`", "a{", "%2F")],
])
def test_a_name_has_letters_digits_and_three_signs(name, reply):
    expect_talk([("GET", f"/state/{name}", b"", reply)])
