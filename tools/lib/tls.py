"""What is in the clear of the methods that are over TLS: its alerts (RFC 5216 section 3.1, RFC 8446 section 6)."""

from __future__ import annotations

# EAP-TLS, EAP-TTLS, PEAP, EAP-FAST and TEAP, whose first octet of data has the flags.
METHODS, HAS_LENGTH, FATAL = (13, 21, 25, 43, 55), 0x80, 2
ALERTS = {10: "unexpected message", 20: "bad record MAC", 40: "handshake failure", 42: "bad certificate", 43: "unsupported certificate",
          44: "certificate revoked", 45: "certificate expired", 46: "certificate unknown", 47: "illegal parameter", 48: "unknown CA",
          49: "access denied", 50: "decode error", 51: "decrypt error", 70: "protocol version", 71: "insufficient security",
          80: "internal error", 112: "unrecognized name", 116: "certificate required", 120: "no application protocol"}


def alert_of(octets: bytes) -> str:
    """The fatal alert in a message of such a method, where it isn't encrypted."""
    if len(octets) < 6 or octets[0] not in (1, 2) or octets[4] not in METHODS:
        return ""
    record = octets[6 + (4 if octets[5] & HAS_LENGTH else 0) :]
    is_alert = len(record) == 7 and record[:2] == b"\x15\3" and record[3:6] == bytes([0, 2, FATAL])
    return ALERTS.get(record[6], f"alert {record[6]}") if is_alert else ""
