"""Secrets: what a link carries in its fragment and a request in a header, and nothing else ever."""

from __future__ import annotations

import hmac
import secrets

HEADER = "hall-secret"
"""The header of a request that carries a secret."""

BYTES = 16
"""The length of a secret: 128 bits, from the system's own source."""

LENGTH = 22
"""How many letters, digits, `-` and `_` a secret is written with."""


def new_secret() -> str:
    """A secret that nobody has had."""
    return secrets.token_urlsafe(BYTES)


def same(shown: bytes, wanted: str) -> bool:
    """Whether what was shown is the secret. How long that takes says nothing about where the two differ."""
    return hmac.compare_digest(shown, wanted.encode("ascii"))
