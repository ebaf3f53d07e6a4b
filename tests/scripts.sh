# Rows of ./sources, ./desk and ./prove, read by ./test. They run in a copy
# of the tree, with a stand-in for the program, and one for the kit.

scripts=$room/scripts tree=$room/scripts/tree kit=$room/scripts/kit
mkdir -p "$tree/crates" "$kit/bin" "$scripts/home"
cp -r sources desk prove crates.txt packaging "$tree"
for crate in crates/*; do
  mkdir "$tree/$crate"
  for part in src specs proofs; do [ -d "$crate/$part" ] && cp -r "$crate/$part" "$tree/$crate"; done
done

# the kit itself runs the sources of a second copy, beside the rows below
mkdir "$scripts/real" && cp -r "$tree"/{sources,desk,crates.txt,crates} "$scripts/real"
{ XDG_CACHE_HOME=$scripts/none "$scripts/real/desk" score <(printf 'waits 1112345678999m\n') "$PWD/examples/rules-two.lines"; echo "status $?"; } > "$scripts/real/answers" 2> /dev/null < /dev/null &
tried=$!

# stand_in FOLDER SUM: a program in FOLDER that says its words, and the file that says it is built from sources of SUM
stand_in() {
  mkdir -p "$1"
  printf '#!/bin/sh\necho "program:${*:+ $*}"\n' > "$1/riichi_desk"
  chmod +x "$1/riichi_desk"
  printf 'sources %s\nprogram %s\n' "$2" "$(sha256sum < "$1/riichi_desk" | cut -d' ' -f1)" > "$1/riichi_desk.proved"
}

# by_hand FOLDER WORDS..: what WORDS writes in FOLDER, with its status, the stand-in of the kit and no other home
by_hand() {
  (cd "$1" && shift && HOME=$scripts/home XDG_CACHE_HOME=$scripts/home/cache PATH=$kit:$PATH "$@" 2>&1; echo "status $?")
}

# the kit's stand-in: `rt try` says its words and what kit/tried says
cat > "$kit/rt" << 'END'
#!/usr/bin/env bash
kit=$(dirname "$0")
case $1 in
  version) echo 'kit-0 logic 0123' ;;
  doc) echo "$kit/START-HERE.md" ;;
  try)
    cat > "$kit/given"
    for word in "$@"; do case $word in table-*=*) cat "${word#*=}" >> "$kit/given" ;; esac; done
    echo "tried: $*" | sed 's/: .* -- /: /'
    cat "$kit/tried" >&2
    exit "$(sed -n 's/^run=ended status=\([0-9]*\).*/\1/p' "$kit/tried" | grep . || echo 6)"
    ;;
  run)
    mkdir -p out && printf '#!/bin/sh\necho "program:${*:+ $*}"\n' > out/riichi_desk && chmod +x out/riichi_desk
    echo 'crate riichi_desk: modules loaded=1 checked=1'
    ;;
esac
END
# and as a module, by which packaging/prove-crates proves each crate but that of kit/wrong; all but two are slow where kit/slow is
cat > "$kit/bin/rt" << 'END'
import os
import time
import types

KIT = os.path.dirname(os.path.dirname(os.path.realpath(__file__)))


if os.path.isfile(f"{KIT}/shares"):  # not every kit has this call

    def share_work(_):
        pass


def lock(_):
    pass


def guarded():
    pass


def stop_on_links(_):
    pass


class Crate:
    def __init__(self, line, known):
        name, uses = line.split(":")
        self.name, *kind = name.split()
        self.folder, self.is_static = f"crates/{self.name}", kind == ["staticlib"]
        self.deps = [known[it] for it in uses.split() if it in known]

    def below(self):
        return {crate for it in self.deps for crate in [*it.below(), it]}

    def count(self, _):
        return 1

    def build_rlib(self, _, anew):
        wrong = f"{KIT}/wrong"
        if os.path.isfile(f"{KIT}/slow") and self.name not in ("riichi_tiles", "riichi_text"):
            time.sleep(20)
        is_wrong = os.path.isfile(wrong) and open(wrong).read().strip() == self.name
        print("fn f: not proved" if is_wrong else "fn f: proved", file=self.out)
        return int(is_wrong)

    def build_static(self, _):
        with open(f"{self.folder}/out/lib{self.name}.a", "w") as it:
            it.write("archive")
        return 0


def crates_below(top):
    known = {}
    for line in open(f"{top}/crates.txt"):
        if not line.startswith("#"):
            crate = Crate(line, known)
            known[crate.name] = crate
    return list(known.values())


rtlib = types.SimpleNamespace(**globals())
END
chmod +x "$kit/rt"

# the sum sees the sources alone, from anywhere
sum=$("$tree/sources")
told 'the sum of a copy' "$(./sources)" "$sum"
mkdir -p "$tree/crates/riichi_tiles/out/rlib/src" && echo x > "$tree/crates/riichi_tiles/out/rlib/src/made.rt"
told 'the sum after a check' "$sum" "$("$tree/sources")"
ln -s "$tree/sources" "$scripts/linked-sources"
told 'the sum through a link' "$sum" "$(cd / && "$scripts/linked-sources")"

# the program of just these sources answers, from any folder and through links
stand_in "$tree/bin" "$sum"
told 'the built program' $'program: waits 1m\nstatus 0' "$(by_hand "$tree" ./desk waits 1m)"
told 'the built program, from elsewhere' $'program: waits 1m\nstatus 0' "$(by_hand / "$tree/desk" waits 1m)"
told 'the built program, by bash' $'program: waits 1m\nstatus 0' "$(by_hand "$tree" bash desk waits 1m)"
ln -s "$tree/desk" "$scripts/linked-desk"
told 'the built program, through a link' $'program: a  b\nstatus 0' "$(by_hand "$scripts" ./linked-desk 'a  b')"
ln -s "$tree" "$scripts/linked-tree"
told 'the built program, through a linked folder' $'program:\nstatus 0' "$(by_hand "$scripts" linked-tree/desk)"

# a second call sums nothing up, nor does one after a check
printf '#!/bin/sh\necho summed >> "%s/sums"\nexec "%s" "$@"\n' "$kit" "$(command -v sha256sum)" > "$kit/sha256sum"
chmod +x "$kit/sha256sum"
touch "$kit/sums"
sleep 2.1
by_hand "$tree" ./desk > /dev/null
: > "$kit/sums"
echo y > "$tree/crates/riichi_tiles/out/rlib/src/made.rt"
told 'a call after a check sums nothing up' $'program:\nstatus 0 0' "$(by_hand "$tree" ./desk) $(wc -l < "$kit/sums")"
rm "$kit/sha256sum"

# a changed source is seen, whatever its time says, and so is one that is gone; then nothing is proved
echo 'run=ended status=0 proved=no' > "$kit/tried"
source_file=$tree/crates/riichi_tiles/src/lib.rt
unproved='desk: nothing is proved yet: this call runs the sources as they are, which takes a minute or two each time; ./prove proves them once, in about an hour on four processors, and from then on answers come at once, as they do from a release of these sources (README.md), which is taken where it lies unpacked here'
cp -p "$source_file" "$scripts/lib.rt"
sed -i '1s/^/ /' "$source_file" && touch -r "$scripts/lib.rt" "$source_file"
told 'a source with a blank more' "$unproved"$'\ntried: waits 1m\nstatus 0' "$(by_hand "$tree" ./desk waits 1m)"
cp -p "$scripts/lib.rt" "$source_file"
told 'the source as it was' $'program:\nstatus 0' "$(by_hand "$tree" ./desk)"
mv "$tree/crates/riichi_rows/proofs" "$scripts/proofs"
told 'a folder of proofs is gone' "$unproved"$'\ntried: waits 1m\nstatus 0' "$(by_hand "$tree" ./desk waits 1m)"
mv "$scripts/proofs" "$tree/crates/riichi_rows/proofs"
told 'the folder is back' $'program:\nstatus 0' "$(by_hand "$tree" ./desk)"

# a tree at another path: a copy with bin/; the program that ./prove left; an unpacked release, unless it isn't whole
cp -r "$tree" "$scripts/copy"
told 'a copy of the tree' $'program:\nstatus 0' "$(by_hand "$scripts/copy" ./desk)"
rm -r "$scripts/copy/bin"
stand_in "$scripts/home/cache/riichi_desk" "$sum"
mkdir "$scripts/copy/bin" && echo old > "$scripts/copy/bin/libriichi_desk_c.a"
told 'a tree that has no program' $'program: b\nstatus 0' "$(by_hand "$scripts/copy" ./desk b)"
told 'no library of other sources beside it' 0 "$(ls "$scripts/copy/bin" | grep -c '^lib')"
rm -r "$scripts/copy/bin" "$scripts/home/cache"
stand_in "$scripts/copy/riichi_desk-9-linux-x86_64" "$sum"
echo '# cut off' >> "$scripts/copy/riichi_desk-9-linux-x86_64/riichi_desk"
told 'a release that is not whole' "$unproved"$'\ntried: waits 1m\nstatus 0' "$(by_hand "$scripts/copy" ./desk waits 1m)"
stand_in "$scripts/copy/riichi_desk-9-linux-x86_64" "$sum"
told 'an unpacked release' $'program: c\nstatus 0' "$(by_hand "$scripts/copy" ./desk c)"
told 'its program is in bin' "$(cat "$scripts/copy/riichi_desk-9-linux-x86_64/riichi_desk")" "$(cat "$scripts/copy/bin/riichi_desk")"

# before ./prove: files of any name and pipes, what is typed, too many answers, sources that don't run, no kit
rm -r "$tree/bin" "$scripts/copy"
printf 'hand one\n' > "$scripts/a=b c.lines"
told 'a file of any name and a pipe' "$unproved
tried: score --workers 4 table-0 table-1
status 0
hand one
hand two" "$(by_hand "$scripts" ./linked-desk score --workers 4 'a=b c.lines' <(printf 'hand two\n'); tail -n 2 "$kit/given")"
printf 'riichi_desk: cannot open table-0\nrt: a word of its own\nrun=ended status=3 runners=1 proved=no\n' > "$kit/tried"
told "a file's own name in what is said" "$unproved
tried: replay table-0
riichi_desk: cannot open a=b c.lines
status 3" "$(by_hand "$scripts" ./linked-desk replay 'a=b c.lines')"
printf 'run=ended status=1 runners=1 proved=no\n' > "$kit/tried"
told 'lines from a pipe that pauses' "$unproved
tried: line
status 1
one
two" "$({ echo one; sleep 2.5; echo two; } | by_hand "$scripts" ./linked-desk line; cat "$kit/given")"
told 'lines to be answered as JSON' "$unproved
tried: line --json
status 1
one" "$(echo one | by_hand "$scripts" ./linked-desk line --json; cat "$kit/given")"
told 'lines to be answered by four threads' "$unproved
tried: line --workers 4
status 1
one" "$(echo one | by_hand "$scripts" ./linked-desk line --workers 4; cat "$kit/given")"
cat > "$scripts/types" << 'END'
import os, sys
import pty
child, terminal = pty.fork()
if child == 0:
    os.execv(sys.argv[1], [sys.argv[1], "line"])
typed = [b"waits 8z\n", b"waits 4z\n", b"\x04"]
said = b""
try:
    while more := os.read(terminal, 4096):
        said += more
        # the next line once the last one is seen: the first when it is said how to type
        while typed and said.endswith(b"\n") and said.count(b"\n") >= 5 - len(typed):
            os.write(terminal, typed.pop(0))
except OSError:
    pass
sys.stdout.write(said.decode().replace("\r", ""))
END
told 'lines typed at a terminal' "$unproved
desk: type the lines, and end them by Ctrl-D at the start of a line; the answers come after that, all at once
waits 8z
waits 4z
tried: line
status 0
waits 8z
waits 4z" "$(by_hand "$scripts" python3 "$scripts/types" ./linked-desk; cat "$kit/given")"
printf 'checked: no-answer: the program wrote more than 1048576 bytes to standard output or to standard error, the limit on each\nrun=no-answer proved=no\n' > "$kit/tried"
told 'more answers than the sources can write' "$unproved
desk: more than 1 MiB of answers: only the built program writes that; ./prove builds it
status 5" "$(by_hand "$tree" ./desk line < /dev/null)"
told 'more input than the sources can read' "$unproved
desk: more than 64 MiB of input: only the built program answers that; ./prove builds it
status 5" "$(head -c 67108865 /dev/zero | by_hand "$tree" ./desk line)"
printf 'error: x\nrun=none proved=no\n' > "$kit/tried"
told "sources that don't run" "$unproved
error: x
run=none proved=no
desk: the sources don't run, as the lines above say
status 5" "$(by_hand "$tree" ./desk line < /dev/null)"
told 'neither a program nor the kit' "desk: no program is built from these sources, and the command rt of the Rattle kit, which runs or builds them, isn't here; a release needs no kit (README.md)
status 127" "$(PATH=/usr/bin:/bin; kit=/nowhere by_hand "$tree" ./desk line)"

# ./prove: no kit; a crate that isn't proved; an interrupt; all proved, and then ./desk answers, here and in another tree
told 'a proof without the kit' "prove: the command rt of the Rattle kit isn't here, and nothing can be proved without it; a release (README.md) has the built program, and needs no kit
status 127" "$(PATH=/usr/bin:/bin; kit=/nowhere by_hand "$tree" ./prove)"
ln -s "$tree/prove" "$scripts/linked-prove"
# the crates that the program or a static library stands on
count=$(awk -F: '/^[a-z_0-9 =]*:/ { split($1, name, " "); uses[name[1]] = $2; if ($1 ~ / staticlib/ || name[1] == "riichi_desk") wanted[name[1]] = 1 }
  END {
    do { more = 0; for (crate in wanted) { count = split(uses[crate], below, " "); for (i = 1; i <= count; i++) if (below[i] in uses && !(below[i] in wanted)) { wanted[below[i]] = 1; more = 1 } } } while (more)
    for (crate in wanted) total++
    print total
  }' crates.txt)
echo riichi_score > "$kit/wrong"
told "a crate that isn't proved" "== riichi_score
fn f: not proved
prove: riichi_score is not proved
status 1" "$(by_hand "$scripts" ./linked-prove | tail -n 4)"
rm "$kit/wrong"
: > "$kit/slow"
(cd "$tree" && HOME=$scripts/home PATH=$kit:$PATH exec ./prove > "$scripts/said" 2>&1) &
for ((i = 0; i < 300; i++)); do
  grep -q '^prove: 2 of' "$scripts/said" 2> /dev/null && break
  sleep 0.2
done
kill -TERM $!
wait $!
told 'a proof that is interrupted' "status 130: prove: interrupted at 2 of $count crates; what is proved stays, and the next ./prove goes on from there" \
  "status $?: $(tail -n 1 "$scripts/said")"
rm "$kit/slow"
: > "$kit/shares"
told 'a whole proof' "prove: $count of $count crates, less than a minute left
prove: all proved; the program is bin/riichi_desk
status 0" "$(by_hand "$scripts" ./linked-prove | tail -n 3)"
told 'what it was proved with' "proved with kit-0, logic 0123
sources $sum
program $(sha256sum < "$tree/bin/riichi_desk" | cut -d' ' -f1)" "$(cat "$tree/bin/riichi_desk.proved")"
told 'the static library that was proved' archive "$(cat "$tree/bin/libriichi_desk_c.a")"
told 'the program that was proved' $'program: d\nstatus 0' "$(by_hand "$tree" ./desk d)"
mkdir "$scripts/other" && cp -r "$tree"/{sources,desk,crates.txt,crates} "$scripts/other"
told 'another tree takes it' $'program: e\nstatus 0' "$(by_hand "$scripts/other" ./desk e)"

wait "$tried"
told 'the sources before the proof, by the kit itself' "table 0
waits 123456789m
table 1
$(cat examples/rules-two.answers)
status 0" "$(cat "$scripts/real/answers")"
