# shellcheck shell=sh disable=SC2154
# Runs a program on an input and prints its page, for bin/plan and bin/month, which source this file with their argument and with these set: root;
# name, the script's own; program, in target/bin; input, the word for what it reads; most, the bytes that are copied of it, enough that a longer one
# is refused as it is and not cut short; sample, the file in host/ for want of another, and about, what it is; where the program gives 8 and 9,
# most_arrivals and most_costs, its room; takes_empty, yes where no bytes are an input too. The input is the file that the argument names, standard input
# for `-`, and without an argument standard input, if a file or a pipe stands there that has a byte or may be empty, or the sample. The program is proved and built first, if it is not there or older than the
# crates (bin/build). A refusal is explained on standard error: the number, what it means, the text of the line.
# Exit status: 0 served, 1 refused, 2 where the input cannot be read, the page not printed or the program not built.
status=2
work=$(mktemp -d) || exit "$status"
trap 'rm -rf "$work"; exit "$status"' EXIT
trap exit HUP INT TERM

say() {
    printf '%s: %s\n' "$name" "$*" >&2
}

# Copies an input.
take() {
    head -c "$most" > "$work/input"
}

# Copies the input that the argument names.
fetch() {
    if [ "$1" = - ]; then
        take
    else
        [ -r "$1" ] && [ ! -d "$1" ] || { say "'$1' is no file that can be read"; exit; }
        take < "$1"
    fi
}

# Copies the input on standard input, or the sample.
fetch_unnamed() {
    if [ -f /dev/stdin ] || [ -p /dev/stdin ]; then
        take
        [ "$takes_empty" = no ] || return 0
    fi
    if [ ! -s "$work/input" ]; then
        say "no $input is named, so this is $sample, $about (host/README.md)"
        take < "$root/$sample"
    fi
}

# Prints the text of a line, its beginning where it is long or the copy ends in it.
text_of() {
    end=
    [ "$(wc -l < "$work/input")" -ge "$1" ] || [ "$(wc -c < "$work/input")" -lt "$most" ] || end=...
    sed -n "$1p" "$work/input" | cat -v | sed "s/\$/$end/; s/^\\(.\\{200\\}\\)..*/\\1.../"
}

# Explains a refusal in the words of host/refusals.txt.
explain() {
    words=$(sed -n "s/^$1 [A-Z_]* //p" "$root/host/refusals.txt")
    case $1 in
        8) words="$words for $most_arrivals" ;;
        9) words="$words for $most_costs" ;;
    esac
    if [ "$2" -eq 0 ]; then
        echo "refusal $1: $words" >&2
    else
        echo "refusal $1 at line $2: $words" >&2
        printf '    "%s"\n' "$(text_of "$2")" >&2
    fi
}

[ $# -le 1 ] || { say "one file at most"; exit; }
"$root/bin/build" > "$work/build" || { cat "$work/build" >&2; say "the program is not built"; exit; }
if [ $# -eq 1 ]; then fetch "$1"; else fetch_unnamed; fi
"$root/target/bin/$program" < "$work/input" > "$work/page"
cat "$work/page"
IFS=, read -r letter number line < "$work/page"
status=0
if [ "$letter" = R ]; then
    status=1
    explain "$number" "$line"
fi
