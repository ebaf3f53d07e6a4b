"""Why a request is refused: each reason has a name that programs read, a status of HTTP, and words for people."""

from __future__ import annotations

from enum import Enum


class Reason(Enum):
    """Why nothing was done. The value is the status of HTTP, the name for programs, and the words."""

    ADDRESS = (404, "no-such-address", "There is nothing at this address.")
    METHOD = (405, "no-such-method", "This address doesn't take that method.")
    QUERY = (400, "query", "An address has no `?` here.")
    LENGTH = (400, "length", "The length of the body isn't a number of bytes.")
    TOO_LARGE = (413, "too-large", "The request is larger than any that the hall takes.")
    TOO_SLOW = (408, "too-slow", "The request took too long to come.")
    BROKEN_OFF = (400, "broken-off", "The request ended before it was whole.")
    TOO_OFTEN = (429, "too-often", "Too many requests in a short time; try again in some seconds.")
    TOO_MANY = (503, "too-many", "The hall has no more room for this; try again in some seconds.")
    FOREIGN = (403, "foreign-origin", "The request comes from a page of another origin.")
    SECRET = (401, "secret", "The secret opens nothing here.")
    NOT_JSON = (400, "not-json", "The body isn't an object of JSON.")
    MEMBERS = (400, "members", "The object has not the members that are wanted here.")
    NO_SESSION = (409, "no-session", "No such session is open.")
    NO_TABLE = (404, "no-such-table", "There is no such table.")
    NO_DEAL = (404, "no-such-deal", "There is no such deal.")
    CLOSED = (409, "closed", "The session is closed.")
    NOT_NOW = (409, "not-now", "That can't be done as things stand.")
    GAME = (422, "game", "The game refuses the line.")
    PROGRAM = (502, "program", "The program riichi_desk refused it.")
    NOT_KEPT = (503, "not-kept", "The disk didn't take it, so nothing is done.")
    FAULT = (500, "fault", "Something went wrong here; nothing is done.")

    @property
    def status(self) -> int:
        """The status of HTTP."""
        return self.value[0]

    @property
    def code(self) -> str:
        """The name that programs read."""
        return self.value[1]

    @property
    def words(self) -> str:
        """Why, for people."""
        return self.value[2]


class Refused(Exception):
    """A request that is refused: nothing was changed. `told` says more than the reason's own words."""

    def __init__(self, reason: Reason, told: str = "") -> None:
        super().__init__(reason.code)
        self.reason = reason
        self.told = told

    def members(self) -> dict[str, str]:
        """The answer as an object of JSON."""
        return {"refused": self.reason.code, "words": self.told or self.reason.words}
