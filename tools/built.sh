# Which program was built from which sources, and how it is built: what ./list, ./install and ./test share.
# Who reads this has set `self`, the word that its messages begin with, and `root`, the repository's top.
# shellcheck shell=sh
# shellcheck disable=SC2154

program=$root/crates/nomutanku/out/nomutanku
archive=$root/crates/cabi/out/libcabi.a

say() {
    printf '%s: %s\n' "$self" "$*" >&2
}

fail() { # STATUS MESSAGE
    status=$1
    shift
    say "$@"
    exit "$status"
}

# A crate and all below it, in the order of crates.txt, which has the lowest first.
crates_of() { # CRATE
    awk -F: -v top="$1" '
        { sub(/#.*/, ""); split($1, word, " ") }
        word[1] != "" { order[++n] = word[1]; below[word[1]] = $2 }
        END {
            need[top] = 1
            do {
                more = 0
                for (i = 1; i <= n; i++)
                    for (k = order[i] in need ? split(below[order[i]], found, " ") : 0; k > 0; k--)
                        if (found[k] in below && !(found[k] in need)) { need[found[k]] = 1; more = 1 }
            } while (more)
            for (i = 1; i <= n; i++) if (order[i] in need) print order[i]
        }' "$root/crates.txt"
}

sum() {
    sha256sum | cut -d ' ' -f 1
}

# Over crates.txt and all that a proof of the crate reads in the repository.
sources_of() { # CRATE
    (
        cd "$root" || exit
        {
            printf 'crates.txt\0'
            for crate in $(crates_of "$1"); do
                for part in src specs proofs; do
                    [ ! -d "crates/$crate/$part" ] || find "crates/$crate/$part" -type f -print0
                done
            done
        } | LC_ALL=C sort -z | xargs -0 sha256sum | sum
    )
}

# Notes beside what was built what it was built from: the sources, the file itself, and by which toolchain.
note() { # FILE SOURCES
    printf '%s %s %s\n' "$2" "$(sum <"$1")" "$(rt version)" >"$1.from.$$" && mv -f "$1.from.$$" "$1.from"
}

# Whether the file was built from the crate's sources as they are. Without a toolchain none can differ.
is_built() { # FILE CRATE
    [ -x "$1" ] || [ "$1" = "$archive" ] && [ -f "$1.from" ] || return 1
    read -r sources built kit <"$1.from" || return 1
    [ "$built" = "$(sum <"$1")" ] && [ "$sources" = "$(sources_of "$2")" ] || return 1
    ! command -v rt >/dev/null 2>&1 || [ "$kit" = "$(rt version)" ]
}

# Proves each crate in turn, so as to tell how far it is, and builds. What rt says goes to a file.
build() { # FILE CRATE
    name=${1#"$root"/}
    command -v rt >/dev/null 2>&1 ||
        fail 69 "$name is not built from these sources, and there is no rt to build it with"
    log=$(dirname "$1")/build.log
    { mkdir -p "$(dirname "$1")" && : >"$log"; } 2>/dev/null || fail 69 "cannot write ${log#"$root"/}"
    sources=$(sources_of "$2")
    started=$(date +%s)
    crates=$(crates_of "$2")
    printf '%s: proving and building %s, which may take minutes. Crates proved, of %d:' \
        "$self" "$2" "$(printf '%s\n' "$crates" | wc -l)" >&2
    proved=0
    for crate in $crates; do
        verb=lib
        # the program is run by that too: it tells its version
        [ ! -f "$root/crates/$crate/src/main.rt" ] || verb='run -- --version'
        # shellcheck disable=SC2086
        (cd "$root/crates/$crate" && rt $verb) </dev/null >>"$log" 2>&1 || {
            printf '\n' >&2
            fail 69 "\"rt $verb\" in crates/$crate failed; what it said is in ${log#"$root"/}"
        }
        proved=$((proved + 1))
        printf ' %d' "$proved" >&2
    done
    printf ', in %d seconds\n' "$(($(date +%s) - started))" >&2
    [ -f "$1" ] || fail 69 "rt left no $name; what it said is in ${log#"$root"/}"
    [ "$sources" = "$(sources_of "$2")" ] || fail 69 'the sources changed while they were built: start again'
    note "$1" "$sources" || fail 69 "cannot write $name.from"
}

# Builds what is not built from these sources.
need() { # FILE CRATE
    is_built "$1" "$2" || build "$1" "$2"
}
