"""Lines and words as the desk parts them: by line feeds and by spaces, and by no other sign that Unicode counts among these."""

from __future__ import annotations


def lines_of(text: str) -> list[str]:
    """The lines of a text, each of which ends by a line feed; the last one may lack it."""
    lines = [line.removesuffix("\r") for line in text.split("\n")]
    return lines[:-1] if lines[-1] == "" else lines


def words_of(line: str) -> list[str]:
    """The words of a line, without the note behind them."""
    words = []
    for word in line.split(" "):
        if word.startswith("#"):
            break
        if word:
            words.append(word)
    return words
