# shellcheck shell=sh disable=SC2154
# For tests/program, tests/plan and tests/month, which source this file with root and out set, the folder for what they make: ways to deliver an input,
# the page of a program held against a stored one, runs of bin/plan and bin/month shown, and a tree in which another rt builds the programs.

# A file's bytes in pieces, the second of which ends after so many bytes: in_pieces BYTES FILE.
in_pieces() {
    head -c 3 "$2"
    sleep 0.05
    head -c "$1" "$2" | tail -c +4
    sleep 0.05
    tail -c "+$(($1 + 1))" "$2"
}

# A file's bytes, each written by itself.
byte_by_byte() {
    at=0
    while [ "$at" -lt "$(wc -c < "$1")" ]; do
        dd status=none bs=1 count=1 skip="$at" if="$1"
        at=$((at + 1))
    done
}

# A file's lines, the last after so many seconds: late SECONDS FILE.
late() {
    sed '$d' "$2"
    sleep "$1"
    tail -n 1 "$2"
}

# Ends the tests at a case.
fail() {
    echo "FAILED: $1"
    exit 1
}

# Holds the page that the program prints for standard input against a stored one: expect CASE PAGE.
expect() {
    timeout 20 "$program" > "$out/printed" || fail "$1: exit status $?"
    cmp -s "$2" "$out/printed" || { diff "$2" "$out/printed" | head -n 20; fail "$1: < is expected, > is printed"; }
}

# The same with a page of one line: expect_line CASE LINE.
expect_line() {
    echo "$2" > "$out/expected"
    expect "$1" "$out/expected"
}

# The same with a page of a file whose last line comes late, to a program that is stopped and goes on: expect_stopped CASE PAGE FILE.
expect_stopped() {
    late 0.6 "$3" | "$program" > "$out/printed" &
    sleep 0.2
    kill -STOP $!
    sleep 0.2
    kill -CONT $!
    wait $!
    cmp "$2" "$out/printed" || fail "$1"
}

# Holds the program to no page, and to what it says on standard error, where standard input cannot be read: expect_unread CASE WORDS.
expect_unread() {
    timeout 20 "$program" > "$out/printed" 2> "$out/said" || fail "$1: exit status $?"
    [ ! -s "$out/printed" ] || { cat "$out/printed"; fail "$1: that was printed, and nothing should be"; }
    echo "$2" | cmp -s - "$out/said" || fail "$1: '$(cat "$out/said")' on standard error"
}

# Holds the program to no page wherever standard input cannot be read, at its start or in the middle of a file: expect_all_unread WORDS FILE.
expect_all_unread() {
    expect_unread 'standard input closed' "$1" <&-
    expect_unread 'a folder on standard input' "$1" < /
    expect_unread 'standard input open for writing alone' "$1" 0> "$out/written"
    mkfifo "$out/pipe"
    exec 3<> "$out/pipe"
    dd status=none iflag=nonblock count=0 <&3
    expect_unread 'a pipe that has nothing and does not wait' "$1" <&3
    sed '$d' "$2" >&3
    expect_unread 'a pipe that has all but the last line and does not wait' "$1" <&3
    exec 3>&-
}

# Holds the program to what it says on standard error where there is no room for the page of a file: expect_unwritten WORDS FILE.
expect_unwritten() {
    said=$("$program" 2>&1 > /dev/full < "$2")
    [ "$said" = "$1" ] || fail "no room for the page: '$said' on standard error"
}

# Shows a run of a script: the page, standard error after !, with N for each time, the exit status.
shown() {
    echo
    echo "= $1"
    shift
    status=0
    timeout 20 "$@" 2> "$out/said" || status=$?
    sed 's/^/! /; s/\([a-z,]\) [0-9][0-9]* s/\1 N s/' "$out/said"
    echo "exit status $status"
}

# Shows a script on each way to name a file, and on what is none; the folder of the file has an empty file too: shown_ways SCRIPT FILE BYTES, of which
# a piece ends after BYTES.
shown_ways() {
    folder=$(dirname "$2")
    shown 'a file by its name' "$1" "$2"
    (cd "$folder" && shown 'a file by its name, from its folder' "$1" "$(basename "$2")")
    shown '-' "$1" - < "$2"
    shown 'a file on standard input' "$1" < "$2"
    # shellcheck disable=SC2002 # a pipe is what is tried
    cat "$2" | shown 'a pipe on standard input' "$1"
    in_pieces "$3" "$2" | shown 'a pipe on standard input, in pieces' "$1"
    # shellcheck disable=SC2002
    cat "$2" | shown 'a pipe by its name' "$1" /dev/stdin
    shown 'a file by its name, another one on standard input' "$1" "$2" < "$folder/empty"
    shown 'nothing on standard input: the sample' "$1" < /dev/null
    shown 'standard input closed: the sample' "$1" <&-
    shown 'an empty file on standard input' "$1" < "$folder/empty"
    : | shown 'an empty pipe on standard input' "$1"
    shown '- and nothing on standard input' "$1" - < /dev/null
    shown 'a missing file' "$1" /missing/sheet
    shown 'a folder' "$1" /
    shown 'an empty name' "$1" ''
    shown 'two files' "$1" "$2" "$2"
    shown 'a folder on standard input' sh -c '"$1" - 2> /dev/null' - "$1" < /
    shown 'no room for the page' sh -c '"$1" "$2" > /dev/full 2> /dev/null' - "$1" "$2"
}

# Writes a copy of what bin/plan and bin/month need, with no program and without the crates of the month, outside the repository, where rt would take
# its crates.txt for one of its own, and a folder with all of their tools but rt; removes both at the end. Sets tree.
copy_tree() {
    tree=$(mktemp -d)
    trap 'rm -rf "$tree"' EXIT
    mkdir -p "$tree/crates" "$tree/host" "$tree/tools"
    cp -r bin "$tree"
    sed '/^input:/d; /^month/d' crates.txt > "$tree/crates.txt"
    for crate in $(sed -n 's/^\([a-z0-9_]*\)\( staticlib\)*:.*/\1/p' "$tree/crates.txt"); do mkdir "$tree/crates/$crate"; done
    cp host/refusals.txt "$tree/host"
    for tool in cat cp date dirname find head mkdir mktemp rm sed tail touch tr wc; do ln -s "$(command -v "$tool")" "$tree/tools"; done
}

# Shows a script of bin/ in the copy: shown_copy CASE SCRIPT FILE.
shown_copy() {
    shown "$1" env PATH="$tree/tools" BUILT="$root/target/bin" "$tree/bin/$2" "$3"
}
