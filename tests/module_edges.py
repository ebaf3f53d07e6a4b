#!/usr/bin/env python3
"""tests/module_edges.py FILE: edges of the Python package: ends of lines, sorts of bytes, profiles, many lines beside one,
threads; the lines are those of FILE. It says `all right` where all are.
"""

import array
import copy
import pickle
import sys
from concurrent.futures import ThreadPoolExecutor

import riichi_desk

WAITS = "waits 1112345678999m"


def try_lines() -> None:
    told = riichi_desk.text(WAITS)
    for end in "", "\n", "\r", "\r\n":
        line = WAITS + end
        for each in line, line.encode(), bytearray(line.encode()), memoryview(line.encode()), array.array("B", line.encode()):
            assert riichi_desk.text(each) == told, each
    for end in "\r\r", "\n\n", "\n\r", "\r\r\n":
        assert riichi_desk.text(WAITS + end).startswith("refused"), end
    assert riichi_desk.text(WAITS + "\udcff") == riichi_desk.text(WAITS.encode() + b"\xff")
    assert riichi_desk.text("") is None and riichi_desk.explain("# a comment") == []
    for line in 5, None, ["waits"]:
        try:
            riichi_desk.text(line)
        except TypeError:
            continue
        raise AssertionError(line)


def try_rules() -> None:
    one = {riichi_desk.text: WAITS, riichi_desk.explain: WAITS}
    many = {riichi_desk.texts: [WAITS], riichi_desk.lines: b"", riichi_desk.answers: [], riichi_desk.game: ""}
    for call, given in (one | many).items():
        for rules in -1, 0, 3, 2**32 - 1, 2**32, 2**32 + 1, 2**64 + 1:
            try:
                call(given, rules)
            except ValueError:
                continue
            raise AssertionError(rules)
    line = "win 123406789m22s34p on=2p by=ron seat=S round=E"
    house = riichi_desk.Rules(red_fives=True)
    assert riichi_desk.text(line, house) == "won 4 han 30 fu 7700 gain 7700 pinfu pure-straight dora 1"
    assert [riichi_desk.answer(line, rules).rules for rules in (house, 1, 2)] == ["1+red-fives", None, None]
    for changes, profile in ({}, 1), ({"red_fives": True, "raised": True}, 2):
        house = riichi_desk.Rules(**changes)
        assert riichi_desk.texts([line], house) == riichi_desk.texts([line], profile), changes


def try_values() -> None:
    lines = [WAITS, "shape 123456789m11348p", "shape 123456789m1134p", "waits 8z", "win 1m", "# a comment"]
    found = riichi_desk.answers(lines)
    assert found == [riichi_desk.answer(it) for it in lines] == pickle.loads(pickle.dumps(found))
    assert len({*found, *found}) == len(lines)
    assert found[1].discards["8p"].kinds == {"2p": 4, "5p": 4}


def try_items() -> None:
    told = riichi_desk.answers([WAITS] * 3)
    for wrong, sort in (5, TypeError), (None, TypeError), (["waits"], TypeError), ("waits \ud800", ValueError):
        for call in riichi_desk.texts, riichi_desk.jsons, riichi_desk.answers:
            try:
                call([WAITS, WAITS.encode(), wrong])
            except sort as error:
                assert "item 2: " in str(error), error
                continue
            raise AssertionError(wrong)
    for text in WAITS, WAITS.encode(), bytearray(WAITS.encode()), memoryview(WAITS.encode()):
        try:
            riichi_desk.answers(text)
        except TypeError as error:
            assert "a list of lines" in str(error)
            continue
        raise AssertionError(text)
    # read by threads at once, pickled unread and read, never changed
    with ThreadPoolExecutor(4) as pool:
        assert set(pool.map(lambda _: told[0].kinds, range(100))) == {told[0].kinds}
    assert pickle.loads(pickle.dumps(told)) == copy.deepcopy(told) == told and hash(told[1]) == hash(told[2])
    for change in (lambda: setattr(told[0], "kinds", ()), lambda: delattr(told[1], "kinds"), lambda: told[2].kind):
        try:
            change()
        except AttributeError:
            continue
        raise AssertionError(change)
    assert riichi_desk.__version__ == riichi_desk.version().split()[1]


def try_games() -> None:
    text = "game 東 南 西 北\r\nron 南 from 西 1.30\nend\ngame"
    told = riichi_desk.game(text)
    assert told.splitlines()[:3:2] == ["game 東 南 西 北 start 30000", "over"] and told.endswith("30000\n")
    for each in text.encode(), bytearray(text.encode()), memoryview(text.encode()), text + "\n":
        assert riichi_desk.game(each) == told, each
    assert riichi_desk.game(b"") == "" and riichi_desk.game("\n# a note\n") == "" and riichi_desk.game(b"\xff") == "refused G1\n"
    hand = "game\nron 1 from 2 0m5m40m345p67s99s on=5s\n"
    assert riichi_desk.game(hand, 2) == riichi_desk.game(hand.replace("game", "game rules=2"))
    assert riichi_desk.game(f"{text}\n" * 2500).count("over") == 2500  # more than a room holds


def try_many(text: bytes) -> None:
    given = text.split(b"\n")
    told = [riichi_desk.text(it) for it in given]
    assert riichi_desk.texts(given) == told and riichi_desk.texts(iter(given)) == told
    assert riichi_desk.texts(it.decode("utf-8", "surrogateescape") for it in given) == told
    assert riichi_desk.texts([WAITS, b"waits 8z"]) == [riichi_desk.text(WAITS), "refused N5 hand at 0"]
    assert riichi_desk.texts([WAITS] * 100_000) == [riichi_desk.text(WAITS)] * 100_000  # more than a room holds
    assert riichi_desk.texts([]) == [] and riichi_desk.texts([""]) == [None]
    wanted = "".join(f"{it}\n" for it in told if it is not None).encode()
    assert riichi_desk.lines(text) == wanted and riichi_desk.lines(b"") == b""
    assert riichi_desk.lines(text.decode("utf-8", "surrogateescape")) == riichi_desk.lines(bytearray(text)) == wanted
    within = b"waits 1m\nwaits 2m"
    assert riichi_desk.texts([within, WAITS]) == [riichi_desk.text(within), riichi_desk.text(WAITS)]
    assert riichi_desk.texts([within.decode(), WAITS]) == riichi_desk.texts([within, WAITS])
    assert riichi_desk.answers([within, WAITS]) == [riichi_desk.answer(within), riichi_desk.answer(WAITS)]
    with ThreadPoolExecutor(4) as pool:
        assert list(pool.map(riichi_desk.lines, [text] * 8)) == [wanted] * 8


if __name__ == "__main__":
    with open(sys.argv[1], "rb") as file:
        front = b"".join(file.readline() for _ in range(3000))
    try_lines()
    try_rules()
    try_values()
    try_items()
    try_games()
    try_many(front)
    print("all right")
