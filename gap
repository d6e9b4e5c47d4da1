#!/usr/bin/env bash
# Compares two access tables and prints what the first allows and the second does not: builds the program `gaps` where that is
# needed, and for JSON `policies`, and runs them. What this script says itself goes to standard error; standard output has the programs'
# lines alone, and for a policy that is refused a line of the same form.
set -u
here=$(dirname "$(readlink -f "${BASH_SOURCE[0]}")") || exit 2

usage() {
    cat <<'TEXT'
usage: ./gap FIRST SECOND     compare two tables, each in a file
       ./gap < BOTH           the same, with one table behind the other on standard input

It prints `gaps N`, how many kinds of request the first table allows and the second does not, then the first 16 of them, one a
line: number, p= principal, a= action, r= resource, and where the request has them k0= aws:SourceVpc, k1= s3:prefix,
k2= aws:SourceVpce, k3= aws:Referer, ip= aws:SourceIp. Or it prints `refused`, the number of the refusal, the table (1, 2, or 0
for the comparison) and the place. docs/RULES.md, 7, has the numbers.

A file whose name ends in .json is a policy in the public JSON form (docs/RULES.md, 11); where it is refused, the place is a byte of
that text, and standard error has the line and column. A file whose name ends in .hex is hex text: two digits a byte, spaces where you
like, and # begins a comment. Any other file is a table as it is stored. The two may be of different sorts. The status is 0 when the
program has answered, a refusal included, and 2 when it was not run.

Two examples:

    $ ./gap examples/thirteenth-clock/first.json examples/thirteenth-clock/second.json
    gaps 1
    0 p=lab a=COMPARE r=clock-13

The first policy lets the laboratory compare with thirteen clocks, the second with twelve of them. What is lost has a name.

    $ ./gap examples/sample/first.hex examples/sample/second.hex
    gaps 1
    0 p=! a=A r=r

The first table allows everyone each action that matches `a*` on the resource `r`, the second the action `ab` alone. The shortest
action that is lost has one letter, and since actions ignore case the first in order is `A`. For everyone stands the first
principal there is, `!`.
examples/README.md has more.
TEXT
}

fail() {
    echo "gap: $*" >&2
    exit 2
}

# The bytes of a file: of hex text what it stands for, else as they are.
bytes_of() { # FILE
    [ -e "$1" ] || fail "there is no file $1"
    [ -f "$1" ] && [ -r "$1" ] || fail "$1 cannot be read"
    case $1 in *.hex) ;; *) cat "$1"; return ;; esac
    local escapes
    escapes=$(LC_ALL=C awk -v file="$1" '
        {
            sub(/#.*/, "")
            gsub(/[ \t\r]/, "")
            if ($0 ~ /[^0-9A-Fa-f]/) { print "gap: " file ", line " NR ": only hex digits, spaces and # comments are expected" > "/dev/stderr"; bad = 1; exit }
            if (length($0) % 2) { print "gap: " file ", line " NR ": a hex digit is missing, since a byte has two" > "/dev/stderr"; bad = 1; exit }
            for (i = 1; i < length($0); i += 2) printf "\\x%s", substr($0, i, 2)
        }
        END { if (bad) exit 1 }' "$1") || exit 2
    # shellcheck disable=SC2059
    printf "$escapes"
}

# Says so where the program will take something else than the first file as the first table: that ends with the first record 05.
note_first() { # FILE NAME
    od -An -v -tu1 "$1" | awk '
        BEGIN { at = 0; size = 0 }
        { for (i = 1; i <= NF; i++) byte[size++] = $i }
        END {
            while (at < size && byte[at] != 5) {
                kind = byte[at]
                if (kind >= 1 && kind <= 3) at += 2
                else if (kind == 4) at += 3
                else if (kind == 6) at += 6
                else if (kind >= 64 && kind <= 191) at += kind - 62
                else break
            }
            exit !(at + 1 == size && byte[at] == 5)
        }' || echo "gap: note: $2 does not end with its first record 05, so the first table that the program sees is not just this file" >&2
}

# Prints a file or folder of the sources that is newer than a file, if there is one. What the toolchain makes in out/ is no source, and a
# crate's own folder is changed by that.
changed_since() { # FILE
    (cd "$here" && find crates crates.txt -name out -prune -o \( -type f -o -path 'crates/*/*' \) -newer "$1" -print | head -n 1)
}

# Proves and builds a program, unless that was done since its source last changed.
build() { # PROGRAM
    local built=$here/target/$1-built
    [ -x "$here/target/bin/$1" ] && [ -e "$built" ] && [ -z "$(changed_since "$built")" ] && return
    command -v rt >/dev/null 2>&1 || fail "the Rattle toolchain is not installed: its command rt is not on the PATH"
    mkdir -p "$here/target/bin" || fail "there is no folder $here/target/bin"
    echo "gap: proving and building the program $1 (rt run in crates/$1); the first time this takes some minutes" >&2
    (cd "$here/crates/$1" && { rt run </dev/null 2>&1 | tee "$here/target/$1.log" | grep --line-buffered '^rt:' >&2; exit "${PIPESTATUS[0]}"; }) &&
        cp "$here/crates/$1/out/$1" "$here/target/bin/$1" || fail "the program $1 was not built; $here/target/$1.log says why"
    touch "$built"
}

# Runs a program as the toolchain does: under its own loader and C library, and on a machine that is not x86-64 under an emulator.
run() { # PROGRAM
    local home tools loader emulator word
    command -v rt >/dev/null 2>&1 || [ -n "${RATTLE_HOME:-}" ] || fail "the Rattle toolchain is not installed: its command rt is not on the PATH"
    home=${RATTLE_HOME:-$(dirname "$(dirname "$(readlink -f "$(command -v rt)")")")}
    tools=$home/toolchain
    loader=$tools/lib/ld-linux-x86-64.so.2
    [ -e "$loader" ] || fail "the Rattle toolchain at $home has no loader for programs"
    emulator=
    [ "$(uname -m)" = x86_64 ] || emulator=$(command -v qemu-x86_64) || fail "there is no qemu-x86_64 to run x86-64 programs with"
    for word in $(env | sed -n 's/^\(QEMU_[A-Za-z0-9_]*\)=.*/\1/p'); do unset "$word"; done
    ${emulator:+"$emulator"} "$loader" --library-path "$tools/lib" "$here/target/bin/$1" || fail "the program $1 ended with status $?"
}

# What a refusal of a policy means, in words.
meaning_of() { # NUMBER
    case $1 in
    20) echo "the text is not JSON from here on, or has an escape or a depth that is not taken" ;;
    21) echo "this member, operator or key is unknown, or there for the second time" ;;
    22) echo "a member is missing, or this value is of the wrong type, another Version, or a principal that belongs under AWS" ;;
    3) echo "Effect is Allow or Deny" ;;
    5) echo "a list needs a string" ;;
    6) echo "too many (32 statements, 64 strings and 4 conditions of a statement), or a string of no bytes or over 128" ;;
    7) echo "a value has only printable bytes, and no space" ;;
    8) echo "this is not allowed here: a wildcard in a principal, a variable, no network, or a key of another sort than its operator" ;;
    1) echo "the table would have over 16,384 bytes, or the text has over 131,072, which is more than this command takes" ;;
    *) echo "docs/RULES.md, 7.4, has the numbers" ;;
    esac
}

# Says where a policy is refused: file, line and column, and in words why. A column is a character; in the middle of one it is that one.
say_where() { # FILE NUMBER PLACE
    local line column
    line=$(($(head -c "$3" "$1" | LC_ALL=C tr -dc '\n' | wc -c) + 1))
    column=$(($(head -c "$3" "$1" | LC_ALL=C tail -n 1 | LC_ALL=C.UTF-8 wc -m) + 1))
    [ "$3" -gt 0 ] && [ "$(head -c "$3" "$1" | tail -c 1 | od -An -tu1 | tr -d ' ')" = 10 ] && column=1
    echo "gap: $1, line $line, column $column: refusal $2: $(meaning_of "$2")" >&2
}

# A file's table. A policy that is refused ends the comparison, with the line that the comparison would print for a table.
table_of() { # FILE WHICH TABLE
    case $1 in *.json) ;; *) bytes_of "$1" >"$3" || exit 2; return ;; esac
    bytes_of "$1" >"$3.json"
    build policies
    run policies <"$3.json" >"$3" || exit 2
    case $(head -c 8 "$3" | LC_ALL=C tr -d '\000') in
    "refused "*)
        local word number place
        read -r word number place <"$3"
        echo "$word $number $2 $place"
        say_where "$1" "$number" "$place"
        exit 0
        ;;
    esac
}

case $# in
0)
    if [ -t 0 ]; then
        usage
        exit
    fi
    build gaps
    run gaps
    ;;
1)
    case $1 in -h | --help) usage; exit ;; esac
    usage >&2
    exit 2
    ;;
2)
    room=$(mktemp -d) || exit 2
    trap 'rm -rf "$room"' EXIT
    table_of "$1" 1 "$room/first"
    table_of "$2" 2 "$room/second"
    cat "$room/first" "$room/second" >"$room/both"
    build gaps
    note_first "$room/first" "$1"
    run gaps <"$room/both"
    ;;
*)
    usage >&2
    exit 2
    ;;
esac
