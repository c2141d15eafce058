# Common to the commands in bin/ and to tools/program, which source this file: how a program of the
# repository is built and run, what a command reads, and what it says where nothing is accepted. A
# command defines usage and calls take_input "$@"; what it then reads is the file $input.
set -euo pipefail
root=$(dirname "$(dirname "$(readlink -f "${BASH_SOURCE[0]}")")")
command=${0##*/}
scratch=$(mktemp -d) || exit 2
trap 'rm -rf "$scratch"' EXIT
input=$scratch/input
made=$scratch/made
answer=$scratch/answer

# The most bytes that a program takes: no answer depends on a later one. No more are read, so that
# an input without an end is answered too.
most=65536

say() { printf '%s: %s\n' "$command" "$*" >&2; }

# Nothing was worked: a wrong call, a file that cannot be read, a program that cannot be run.
fail() {
    say "$@"
    exit 2
}

wrong_call() { fail "$*; $command --help says how it is called"; }

# ---- programs

# What rt makes of a program.
made_of() { printf '%s\n' "$root/crates/$1/out/$1"; }

is_built() {
    [ -x "$(made_of "$1")" ] &&
        [ -z "$(find "$root/crates" "$root/crates.txt" -name out -prune -o \
            -type f -newer "$(made_of "$1")" -print -quit)" ]
}

# Builds a program, which rt runs too, on no input. The program may end with any status; rt says
# that it runs it only where all is proved and built.
build_now() {
    local log
    log=$(made_of "$1").log
    mkdir -p "${log%/*}"
    (cd "$root/crates/$1" && rt run </dev/null 2>&1 >/dev/null 9<&-) | tee "$log" |
        sed -un '/^rt: \(running\|chose\) /d; /^rt: /p' >&2 || true
    grep -q "^rt: running out/$1\b" "$log" || fail "the program $1 was not built; $log says why"
    touch -c "$(made_of "$1")"
}

# Two commands may be called at once: the build of one waits for that of the other.
build() {
    exec 9<"$root/crates.txt"
    flock 9
    if ! is_built "$1"; then
        say "building the program $1 and proving the crates that it stands on, once: some minutes," \
            "less where crates are proved already"
        build_now "$1"
    fi
    exec 9<&-
}

# What the search for a blunder runs on.
need_python() {
    command -v python3 >/dev/null ||
        fail "there is no python3 on the PATH, which this search runs on ($root/README.md)"
    python3 -c 'import sys; sys.exit(sys.version_info < (3, 9))' ||
        fail "this search needs python3 of version 3.9 or later ($root/README.md)"
}

# Builds each program that is missing or older than the sources.
need() {
    local name
    command -v rt >/dev/null ||
        fail "the Rattle kit is not installed: there is no rt on the PATH. The kit proves and" \
            "compiles Rattle. It is a tool of its own and no part of this repository: those who" \
            "provide it install it, under /opt/rattle for example ($root/README.md)"
    for name; do
        is_built "$name" || build "$name"
    done
}

# A program on standard input.
run() { "$(made_of "$1")" || fail "the program $1 did not run to its end"; }

# ---- what a command reads

# The one file that is named, or standard input where none is, or `-`.
open_input() {
    [ $# -le 1 ] || wrong_call "it takes one file, and $# are named"
    if [ "${1--}" = - ]; then
        [ ! -t 0 ] || say "reading from the terminal, to the end of input (Ctrl-D)"
    elif [ -d "$1" ]; then
        fail "$1 is a folder"
    elif [ ! -e "$1" ]; then
        fail "there is no file $1"
    elif [ ! -r "$1" ]; then
        fail "the file $1 cannot be read"
    else
        exec <"$1"
    fi
}

take_input() {
    local word
    for word; do
        case $word in
        -h | --help)
            usage
            exit 0
            ;;
        --) break ;;
        -?*) wrong_call "it has no option $word" ;;
        esac
    done
    [ "${1-}" != -- ] || shift
    open_input "$@"
    head -c "$most" >"$input" || fail "the input cannot be read"
}

# Whether the first byte of a file is a kind of record, 1 to 5. No good notes start with one, and
# every good tape does.
is_tape() {
    local first
    first=$(od -An -tu1 -N1 "$1")
    ((1 <= first && first <= 5))
}

# Whether a file is no tape and a line of it starts with one of the five words of field notes, in
# small or large letters and after a byte-order mark too.
is_notes() {
    ! is_tape "$1" &&
        LC_ALL=C grep -aqiE $'^(\xEF\xBB\xBF)?[ \t]*(row|project|start|leg|close)[ \t]' "$1"
}

# Whether a file starts with the byte-order mark of UTF-16, in either order. No good notes and no
# good tape start so.
is_utf16() {
    case $(od -An -tx1 -N2 "$1") in
    *ff\ fe* | *fe\ ff*) ;;
    *) return 1 ;;
    esac
}

# ---- what a command answers

# What a refusal means, in the words of docs/REFUSALS.md; the lines keep to 100 columns.
meaning_of() {
case $1 in
 1) echo "the lent memory is too small" ;;
 2) echo "the tape ends inside a record, or before the close" ;;
 3) echo "out of order: rows come first, then one project, one start, 1 to 64 legs and one close" ;;
 4) echo "a number is out of range" ;;
 5) echo "each row is one minute above the row before, and there are at most 600 rows" ;;
 6) echo "this is the 65th leg, and there are at most 64" ;;
 7) echo "no row has the mean latitude" ;;
 8) echo "the angular misclosure is above 10 seconds for each angle" ;;
 9) echo "the position closure is above 1 in 5,000 of the distance" ;;
esac
}

# What a file is where a tape (recognise tape FILE) or notes (recognise notes FILE) are wanted and
# it cannot be one, and the next step; 1 where nothing is recognised, and nothing is said.
recognise() {
    if [ ! -s "$2" ]; then
        say "there is nothing in the input"
    elif is_utf16 "$2"; then
        say "the text is UTF-16; save it as UTF-8 or plain text"
    elif [ "$1" = tape ] && is_notes "$2"; then
        say "these are field notes: $root/bin/notes-to-sheet takes them"
    elif [ "$1" = notes ] && is_tape "$2"; then
        say "this is a tape: $root/bin/sheet takes it"
    else
        return 1
    fi
}

# Why the desk refused a tape, with the number NUMBER: explain NUMBER TAPE.
explain() {
    recognise tape "$2" ||
        say "refusal $1: $(meaning_of "$1"); what to check: $root/docs/REFUSALS.md"
}

# An answer about a tape, in the file $answer: print_answer TAPE; 1 where it is a refusal.
print_answer() {
    local word number
    cat "$answer"
    read -r word number <"$answer"
    [ "$word" != REFUSED ] || {
        explain "$number" "$1"
        return 1
    }
}

# The sheet of a tape, as the proved program prints it; 1 where it is a refusal.
print_sheet() {
    run sheet <"$1" >"$answer"
    print_answer "$1"
}

# The search for a blunder in a tape, as second/blunder.py prints it; 1 where the tape does not
# read.
print_search() {
    (cd "$root" && exec python3 -B -m second.blunder) <"$1" >"$answer" ||
        fail "the search in $root/second/blunder.py did not run to its end"
    print_answer "$1"
}

# What a program makes of the input, in the file $made: make_by PROGRAM KIND, where KIND is what the
# program takes, a tape or notes. A program's exit status says nothing of the input: where it made
# nothing, it has said why on standard error, and the command ends with 1. Of a file of another kind
# that is said alone; of an empty one it is said first.
make_by() {
    if recognise "$2" "$input" && [ -s "$input" ]; then
        exit 1
    fi
    run "$1" <"$input" >"$made"
    [ -s "$made" ] || exit 1
}

# The tape of field notes; the command ends with 1 where they have a slip.
tape_of_input() { make_by notes_tape notes; }

# The field notes of a tape; the command ends with 1 where it does not read.
notes_of_input() { make_by tape_notes tape; }
