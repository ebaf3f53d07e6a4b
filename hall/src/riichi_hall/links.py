"""The links of a hall: each carries its secret in its fragment, which no browser sends. A link is shown as a QR code too."""

from __future__ import annotations

import segno

from .store import Fixed


def of_table(url: str, fixed: Fixed, table: int) -> str:
    """The link by which a phone joins a table."""
    return f"{url}/table#{table}.{fixed.tables[table]}"


def of_director(url: str, fixed: Fixed) -> str:
    """The director's link."""
    return f"{url}/director#{fixed.director}"


def of_wall(url: str, fixed: Fixed) -> str:
    """The link that can only look."""
    return f"{url}/wall#{fixed.wall}"


def squares(link: str) -> list[str]:
    """A link as a QR code: rows of `1`, a dark square, and `0`."""
    return ["".join("1" if dark else "0" for dark in row) for row in segno.make_qr(link, error="m").matrix]
