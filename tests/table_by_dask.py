"""table_by_dask.py FILE: answers the lines of FILE as a column of a table in Dask (docs/SCALE.md), and prints the answers."""

import sys

import dask.dataframe
import pandas
import riichi_desk

with open(sys.argv[1], encoding="utf-8", errors="surrogateescape", newline="\n") as file:
    lines = file.read().split("\n")[:-1]
frame = dask.dataframe.from_pandas(pandas.DataFrame({"line": lines}), npartitions=4)
frame["answer"] = frame["line"].map_partitions(lambda lines: pandas.Series(riichi_desk.texts(lines), lines.index), meta=("answer", object))
for answer in frame.compute(scheduler="threads")["answer"].dropna():
    print(answer)
