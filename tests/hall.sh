# Rows of the hall (hall/), in a short form: tests/hall-load has the long one. ./test reads this; it gives `program`, `archive` and an
# empty folder `room`. All of it is on the loopback address.

hall=$room/hall
mkdir "$hall"
export RIICHI_DESK_PROGRAM=$program RIICHI_DESK=$hall/lib/libriichi_desk.so.0
hall_paths=$PWD/packaging/python/src:$PWD/hall/src
if /usr/bin/python3 -c 'import segno, starlette, uvicorn' 2> /dev/null; then
  packaging/library/install-library "$archive" include/riichi_desk.h 0.0.0 "$hall"
  for row in evening differing killed hostile; do
    told "the hall: $row" 'all right' "$(PYTHONPATH=$hall_paths /usr/bin/python3 -B tests/hall_rows.py "$row" "$hall/$row" 2> /dev/null)"
  done
  for row in 'serve evening.db' 'export out' 'import out' 'links'; do
    told "the hall: $row without a hall" 2 "$(cd "$hall" && PYTHONPATH=$hall_paths /usr/bin/python3 -B -m riichi_hall $row > said 2>&1; echo $?)"
  done
  if /usr/bin/python3 -c 'import build, hatchling, venv' 2> /dev/null; then
    hall/build-wheel 9.9.9 "$hall/wheel" > "$room/said" 2>&1 && /usr/bin/python3 -m venv --system-site-packages "$hall/venv" \
      && "$hall/venv/bin/pip" install -q --no-index --no-deps "$hall"/wheel/*.whl > "$room/said" 2>&1
    told 'the hall: its wheel' 'usage: riichi-hall [-h] {serve,export,import,links} ...' \
      "$(PYTHONPATH=$PWD/packaging/python/src "$hall/venv/bin/riichi-hall" --help 2>&1 | head -n 1)"
  else
    skip 'the wheel of the hall' 'python3-venv, python3-build or python3-hatchling'
  fi
  if command -v chromium > /dev/null && command -v chromedriver > /dev/null; then
    told "the hall: two phones and a director" 'all right' "$(PYTHONPATH=$hall_paths /usr/bin/python3 -B tests/hall_pages.py "$hall/pages" chromium 2>&1)"
  else
    skip 'the pages of the hall' 'chromium or chromium-driver'
  fi
else
  skip 'the hall' 'python3-starlette, python3-uvicorn or python3-segno'
fi
unset RIICHI_DESK_PROGRAM RIICHI_DESK
# (the linters take the words of hall/pyproject.toml and of hall/.flake8)
if command -v mypy > /dev/null; then
  told 'the hall: its types' Success "$(cd hall && MYPYPATH=../packaging/python/src mypy --strict --cache-dir="$hall/types" src/riichi_hall 2>&1 | sed 's/^Success: .*/Success/')"
else
  skip 'the types of the hall' mypy
fi
if command -v flake8 > /dev/null; then
  told 'the hall: flake8' '' "$(cd hall && flake8 src ../tests/hall_*.py ../tests/hall-load 2>&1)"
else
  skip 'flake8 over the hall' flake8
fi
if command -v pylint > /dev/null; then
  told 'the hall: pylint' 0 "$(cd hall && RIICHI_DESK=$hall/lib/libriichi_desk.so.0 PYTHONPATH=$hall_paths pylint --rcfile pyproject.toml src/riichi_hall > "$room/said" 2>&1; echo $?)"
else
  skip 'pylint over the hall' pylint
fi
