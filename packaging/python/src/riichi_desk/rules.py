"""The rules that a table plays by."""

from __future__ import annotations

import ctypes
from dataclasses import dataclass, fields
from typing import Union

from .library import CALLS


@dataclass(frozen=True)
class Rules:
    """The rules of a house, each on or off. What isn't said is as the first profile has it: `Rules(red_fives=True, ura=False)` is the
    first profile with red fives and without the indicators below. RULES.md of the release has a hand for each. `raised` is the
    rule `raise` of the command line."""

    red_fives: bool = False
    raised: bool = False
    add_yakuman: bool = False
    double_yakuman: bool = False
    counted_yakuman: bool = True
    double_wind_pair: bool = True
    kong_draw_fu: bool = True
    open_simples: bool = True
    open_pinfu_fu: bool = True
    ippatsu: bool = True
    ura: bool = True
    blessing_of_man: bool = False

    @classmethod
    def parse(cls, text: str) -> Rules:
        """The rules of a text, as answers and the option --rules have them; a `ValueError` says where it names none.

        >>> Rules.parse("1+red-fives-ura") == Rules(red_fives=True, ura=False)
        True
        """
        number = _read(text)
        return cls(*(bool(number >> place & 1) for place in range(len(fields(cls)))))

    def number(self) -> int:
        """The number that the library takes."""
        signs = ("+" if getattr(self, rule.name) else "-" for rule in fields(self))
        words = (rule.name.replace("raised", "raise").replace("_", "-") for rule in fields(self))
        return _read("1" + "".join(f"{sign}{word}" for sign, word in zip(signs, words)))


Profile = Union[int, str, Rules]
"""A profile, 1 or 2; a text such as `1+red-fives-ura`, as answers and the option --rules have it; or the rules of a house."""


def _read(text: str) -> int:
    given, wrong = text.encode("utf-8", "surrogateescape"), ctypes.c_size_t()
    number: int = CALLS.riichi_rules(given, len(given), ctypes.byref(wrong))
    if number == 0:
        raise ValueError(f"rules {text!r}: no rules from byte {wrong.value} on; they are 1, 2, or with changes, as 1+red-fives-ura")
    return number


def rules_of(rules: Profile) -> int:
    """The number of a profile, or of the rules of a house."""
    if isinstance(rules, Rules):
        return rules.number()
    if isinstance(rules, str):
        return _read(rules)
    if type(rules) is not int or rules not in (1, 2):
        raise ValueError(f"rules is 1, 2, a text as '1+red-fives' or Rules(..), and not {rules!r}")
    return rules
