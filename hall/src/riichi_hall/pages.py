"""The pages, their scripts and their looks: files of the package, read once."""

from __future__ import annotations

from pathlib import Path

from starlette.requests import Request
from starlette.responses import Response

from .hall import Hall
from .refusals import Reason, Refused

FOLDER = Path(__file__).with_name("pages")

TYPES = {
    ".html": "text/html; charset=utf-8",
    ".js": "text/javascript; charset=utf-8",
    ".css": "text/css; charset=utf-8",
    ".svg": "image/svg+xml",
}
"""The types of what is sent: nothing else in the folder is."""

WORKER = "worker.js"
"""The script that keeps the pages for a phone without network."""


class Pages:
    """What is sent to whoever asks for it: a page says nothing before it has its secret."""

    def __init__(self, hall: Hall) -> None:
        self._hall = hall
        self._files = {it.name: it.read_bytes() for it in FOLDER.iterdir() if it.suffix in TYPES}

    async def page(self, request: Request) -> Response:
        """The page of a table, of the director, or of the wall."""
        return self._sent(f"{request.url.path.strip('/') or 'index'}.html")

    async def file(self, request: Request) -> Response:
        """A script, a look or a picture of the pages."""
        return self._sent(request.path_params["name"])

    def _sent(self, name: str) -> Response:
        if not self._hall.strangers.takes_one():
            raise Refused(Reason.TOO_OFTEN)
        if name not in self._files:
            raise Refused(Reason.ADDRESS)
        headers = {"cache-control": "no-cache"}
        if name == WORKER:
            headers["service-worker-allowed"] = "/"
        return Response(self._files[name], media_type=TYPES[Path(name).suffix], headers=headers)
