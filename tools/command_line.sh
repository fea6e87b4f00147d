#!/usr/bin/env bash
# The command line at work on files: each command, a refusal of each, and what the files hold afterwards. What is printed and written is held
# against tools/reference.py, which was written from docs/ alone; the words of a refusal are given here. Prints a line for each case, and
# 'N passed, M failed' at the end; status 1 if one failed.
set -euo pipefail
cd "$(dirname "$0")/.."
home=$PWD
work=$(mktemp -d)
trap 'rm -rf "$work"' EXIT
if ! (cd crates/lovgwarzh && rt run -- help) >"$work/log" 2>&1; then
    cat "$work/log"
    exit 1
fi
program=$home/crates/lovgwarzh/out/lovgwarzh
cd "$work"
mkdir want folder

# The files, and what each case is to print: want/CASE.out and want/CASE.err.
PYTHONDONTWRITEBYTECODE=1 python3 - "$home/tools" <<'END'
import sys
from pathlib import Path

sys.path.insert(0, sys.argv[1])
import reference as ref
from reference import stream, write, zero

WORDS = {
    2: "the stream is cut off",
    8: "the range is empty or passes the size",
    9: "the range begins before the end of the one before it",
    12: "the names do not meet",
    13: "more than 512 canonical records",
    16: "the store cannot hold the result",
}

streams = {
    "start": stream(b"a", 10, write(0, b"0123456789")),
    "first": stream(b"b", 12, write(2, b"WXYZ"), write(6, b"12"), zero(9, 1), origin=b"a"),
    "second": stream(b"c", 16, write(0, b"hello"), zero(5, 3), write(12, b"tail"), origin=b"b"),
    "shrink": stream(b"d", 4, origin=b"c"),
    "huge": stream(b"b", 1 << 40, zero(0, 100), origin=b"a"),
    "even": stream(b"b", 4096, *[write(4 * i, b"w") for i in range(512)], origin=b"a"),
    "odd": stream(b"c", 4096, *[write(4 * i + 2, b"w") for i in range(512)], origin=b"b"),
    "overlap": stream(b"b", 10, zero(0, 4), zero(3, 2), origin=b"a"),
    "past": stream(b"c", 10, zero(8, 4), origin=b"b"),
}
streams["cut"] = streams["first"][:-1]
for name, data in streams.items():
    Path(name).write_bytes(data)
image = b"0123456789"
Path("image").write_bytes(image)
Path("empty").write_bytes(b"")


def want(case, out="", err=""):
    Path("want", case + ".out").write_text(out)
    Path("want", case + ".err").write_text(err)


def told(path, numbers):
    places = zip(("cause", "layer", "place", "record", "entry"), numbers)
    words = ", ".join(f"{name} {number}" for name, number in places)
    return f"lovgwarzh: {path}: refused: {WORDS[numbers[0]]} ({words})\n"


def refusal(call, *arguments):
    try:
        call(*arguments)
    except ref.Refused as refused:
        return refused.numbers
    raise SystemExit("accepted by the reference")


def check(name):
    records = ref.read(streams[name])
    meaning = ref.meaning(streams[name])
    count = sum(record[0] in "wz" for record in records)
    names = f"from snapshot: {meaning.origin.decode() or '-'}\nto snapshot: {meaning.to.decode()}\n"
    want(f"check-{name}", f"{name}: accepted\n{names}image size: {meaning.size} bytes\ndata records: {count}\n")


def listed(name):
    want(f"list-{name}", ref.text(ref.ranges(ref.read(streams[name]))).decode())


def joined(case, first, second, out):
    data, length = ref.join(streams[first], streams[second], bytes(1 << 16))
    Path("want", case).write_bytes(data[:length])
    want(case, f"{out}: {length} bytes\n")
    return data[:length]


def not_joined(case, first, second, path):
    want(case, err=told(path, refusal(ref.join, streams[first], streams[second], bytes(1 << 16))))


def applied(case, data, name, before, path):
    numbers, after = ref.apply(data, name, before, ref.flat(1 << 32))
    if numbers:
        raise SystemExit("refused by the reference")
    Path("want", case).write_bytes(after)
    want(case, f"{path}: now at snapshot {ref.meaning(data).to.decode()}, {len(after)} bytes\n")
    return after


def not_applied(case, name, at, path):
    numbers, _ = ref.apply(streams[name], at, image, ref.flat(1 << 32))
    want(case, err=told(path, numbers))


for name in ("start", "first", "second", "shrink", "huge", "even"):
    check(name)
want("check-cut", err=told("cut", refusal(ref.read, streams["cut"])))
for name in ("start", "first", "second", "shrink"):
    listed(name)
want("list-overlap", err=told("overlap", refusal(ref.read, streams["overlap"])))

both = joined("join", "first", "second", "joined")
joined("join-over", "first", "second", "over")
not_joined("join-names", "second", "first", "second, first")
not_joined("join-earlier", "cut", "second", "cut")
not_joined("join-later", "first", "past", "past")
not_joined("join-many", "even", "odd", "even, odd")

at_a = applied("apply-start", streams["start"], b"", b"", "base")
at_b = applied("apply-first", streams["first"], b"a", at_a, "base")
at_c = applied("apply-second", streams["second"], b"b", at_b, "base")
applied("apply-shrink", streams["shrink"], b"c", at_c, "base")
applied("apply-join", both, b"a", image, "copy")
not_applied("apply-name", "first", b"b", "first")
not_applied("apply-unnamed", "first", b"", "first")
not_applied("apply-huge", "huge", b"a", "image")
not_applied("apply-cut", "cut", b"a", "cut")

missing = "No such file or directory (os error 2)"
want("check-missing", err=f"lovgwarzh: missing: {missing}\n")
want("check-folder", err="lovgwarzh: folder: Is a directory (os error 21)\n")
want("list-missing", err=f"lovgwarzh: missing: {missing}\n")
want("join-missing", err=f"lovgwarzh: missing: {missing}\n")
want("apply-missing", err=f"lovgwarzh: missing: {missing}\n")
want("join-nowhere", err=f"lovgwarzh: missing/out.tmp: {missing}\n")
want("join-busy", err="lovgwarzh: busy.tmp: File exists (os error 17)\n")
want("join-link", err="lovgwarzh: link: not a plain file\n")
want("join-folder", err="lovgwarzh: folder: not a plain file\n")
want("apply-link", err="lovgwarzh: link: not a plain file\n")
want("list-full", err="lovgwarzh: No space left on device (os error 28)\n")
END

passed=0
failed=0
# verdict CASE WORDS...: counts a case by the command WORDS.
verdict() {
    if "${@:2}"; then
        passed=$((passed + 1))
        echo "$1: ok"
    else
        failed=$((failed + 1))
        echo "$1: FAILED"
    fi
}

# prints CASE STATUS: the last run printed what the case is to print, and ended with the status.
prints() {
    [ "$status" = "$2" ] && cmp -s out "want/$1.out" && cmp -s err "want/$1.err"
}

# run CASE STATUS WORDS...: runs the program with the words.
run() {
    status=0
    "$program" "${@:3}" >out 2>err || status=$?
    verdict "$1" prints "$1" "$2"
}

# holds CASE FILE WANTED: the file has the wanted bytes. lacks CASE FILE: nothing has this name.
holds() {
    verdict "$1: $2" cmp -s "$2" "$3"
}
lacks() {
    verdict "$1: no $2" test ! -e "$2"
}

for name in start first second shrink huge even; do
    run "check-$name" 0 check "$name"
done
run check-cut 1 check cut
run check-missing 1 check missing
run check-folder 1 check folder

for name in start first second shrink; do
    run "list-$name" 0 list "$name"
done
run list-overlap 1 list overlap
run list-missing 1 list missing
status=0
: >out
"$program" list first >/dev/full 2>err || status=$?
verdict list-full prints list-full 1

run join 0 join first second joined
holds join joined want/join
cp first over
chmod 640 over
run join-over 0 join over second over
holds join-over over want/join-over
verdict "join-over: permissions" test "$(stat -c %a over)" = 640
run join-names 1 join second first refused
run join-earlier 1 join cut second refused
run join-later 1 join first past refused
run join-many 1 join even odd refused
run join-missing 1 join first missing refused
lacks join-names refused
cp second kept
run join-earlier 1 join cut second kept
holds join-earlier kept second
run join-nowhere 1 join first second missing/out
cp second busy.tmp
run join-busy 1 join first second busy
holds join-busy busy.tmp second
lacks join-busy busy
rm busy.tmp
ln -s kept link
run join-link 1 join first second link
verdict "join-link: still a link" test -L link
holds join-link kept second
run join-folder 1 join first second folder

: >base
chmod 600 base
run apply-start 0 apply start - base
holds apply-start base want/apply-start
verdict "apply-start: permissions" test "$(stat -c %a base)" = 600
run apply-first 0 apply first a base
holds apply-first base want/apply-first
run apply-second 0 apply second b base
holds apply-second base want/apply-second
run apply-shrink 0 apply shrink c base
holds apply-shrink base want/apply-shrink
: >base
run apply-start 0 apply start "" base
holds apply-start base want/apply-start
cp image copy
run apply-join 0 apply joined a copy
holds apply-join copy want/apply-second
cp image before
for name in name:first:b unnamed:first:- huge:huge:a cut:cut:a; do
    IFS=: read -r case stream at <<<"$name"
    run "apply-$case" 1 apply "$stream" "$at" image
    holds "apply-$case" image before
done
run apply-missing 1 apply first a missing
lacks apply-missing missing
run apply-link 1 apply first a link
holds apply-link kept second

cp "$home/crates/lovgwarzh/stdout" want/tour.out
: >want/tour.err
run tour 0 tour
"$program" help >want/help.out
: >want/help.err
verdict "help: usage" grep -q '^usage: lovgwarzh ' want/help.out
run help 0 help
run help 0 -h
run help 0 --help
: >want/usage.out
cp want/help.out want/usage.err
run usage 1
run usage 1 chek first
run usage 1 check
run usage 1 check first second
run usage 1 list
run usage 1 join first second
run usage 1 join first second joined more
run usage 1 apply first a
run usage 1 apply first a image more
run usage 1 tour more
run usage 1 help more

verdict "no file left behind" test -z "$(find . -name '*.tmp')"
echo "$passed passed, $failed failed"
[ "$failed" = 0 ]
