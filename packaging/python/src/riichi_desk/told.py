"""What answers are made of: tables that are never changed, and values that are read from their JSON when they are first looked at."""

from __future__ import annotations

import json
from collections.abc import Iterator, Mapping
from dataclasses import fields
from typing import TYPE_CHECKING, Any, TypeVar

V = TypeVar("V")
T = TypeVar("T", bound="Told")

_HELD = "_json"
_object = json.JSONDecoder().raw_decode
_new, _hold = object.__new__, object.__setattr__


class Table(Mapping[str, V]):
    """A mapping that is never changed, so it can be hashed. It equals each mapping with the same items."""

    __slots__ = ("_items",)

    def __init__(self, items: Mapping[str, V]) -> None:
        self._items = dict(items)

    def __getitem__(self, key: str) -> V:
        return self._items[key]

    def __iter__(self) -> Iterator[str]:
        return iter(self._items)

    def __len__(self) -> int:
        return len(self._items)

    def __hash__(self) -> int:
        return hash(frozenset(self._items.items()))

    def __repr__(self) -> str:
        return repr(self._items)


class Told:
    """A value that an object of JSON tells. It holds the text of the object until one of its fields is asked for, so a value that
    nobody looks at costs next to nothing."""

    __slots__ = ("_json",)

    @classmethod
    def _read(cls, text: str) -> dict[str, Any]:
        """The fields of an object."""
        return cls._fields(object_of(text))

    @classmethod
    def _fields(cls, told: dict[str, Any]) -> dict[str, Any]:
        """The fields that members of an object make."""
        raise NotImplementedError

    if not TYPE_CHECKING:  # (a type has the fields of its class alone)

        def __getattr__(self, name: str) -> object:
            """A field that isn't read yet. Of two threads that look at once both may read it."""
            if name == _HELD:
                raise AttributeError("no text is held")
            text = getattr(self, _HELD, "")
            if text:
                told = self._read(text)
                _hold(self, "__dict__", told)
                _hold_text(self, "")
                if name in told:
                    return told[name]
            if name in self.__dict__:
                return self.__dict__[name]
            raise AttributeError(f"{type(self).__name__} has no {name}")

    def __reduce__(self) -> tuple[Any, ...]:
        text = _text_of(self)
        return (unread, (type(self), text)) if text else (type(self), tuple(getattr(self, it.name) for it in fields(self)))


_hold_text = Told.__dict__[_HELD].__set__


def _text_of(value: Told) -> str:
    """The text that a value holds; none where it is read, or was made of its fields."""
    text: str = getattr(value, _HELD, "")
    return text


def unread(sort: type[T], text: str) -> T:
    """The value of a sort that an object tells, which is not read yet."""
    value = _new(sort)
    _hold_text(value, text)
    return value


def object_of(text: str) -> dict[str, Any]:
    """The object that a text begins with."""
    told: dict[str, Any] = _object(text)[0]
    return told
