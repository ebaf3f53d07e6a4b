#!/usr/bin/env python3
"""tests/module_words.py: tries the examples in the words of the Python package; it says nothing where all are right."""

import doctest

from riichi_desk import arrays, as_json, games, hall, hints, ledger, many, questions, records, rules, scores, studies, tiles, values

for module in arrays, as_json, games, hall, hints, ledger, many, questions, records, rules, scores, studies, tiles, values:
    doctest.testmod(module)
