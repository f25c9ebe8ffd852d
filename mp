#!/bin/sh
# Runs the program with the words given, in the folder where it is called. Where it was never built, or where a source,
# the list of crates or the kit has changed since the last good build, it is proved and built first. A program whose build
# failed is never run: the status is 70 then.
set -u

root=$(dirname -- "$(readlink -f -- "$0")")
app=$root/crates/mp_app
program=$app/out/mp_app
# It has the kit of the last good build, and its time is when that build began.
built=$app/out/built

say() { echo "mp: $*" >&2; }

# Which kit there is: where it lies, and its line.
kit() {
    rt=$(readlink -f -- "$(command -v rt)")
    echo "$rt"
    cat -- "${rt%/bin/rt}/KIT-ID" 2>/dev/null || rt version
}

# The sources that were changed, moved or removed since the last good build began, by the first found.
newer() {
    find "$root/crates.txt" "$root"/crates/*/src "$root"/crates/*/specs "$root"/crates/*/proofs \
        -cnewer "$built" -print -quit
}

is_current() {
    [ -x "$program" ] && [ -e "$built" ] && [ "$(cat -- "$built")" = "$(kit)" ] && [ -z "$(newer)" ]
}

# The crates of the program, in the order in which rt builds them.
crates() {
    awk '!/^#/ && NF { split($0, words, /[: ]+/); line[words[1]] = $0 }
        function take(name, words, count, i) {
            if (!(name in line) || name in taken) return
            taken[name]
            count = split(line[name], words, /[: ]+/)
            for (i = 2; i <= count; i++) take(words[i])
            print name
        }
        END { take("mp_app") }' "$root/crates.txt"
}

# Says every ten seconds how far the build is: rt leaves a stamp in each crate that it has built.
report() {
    seconds=0
    while sleep 10 </dev/null >/dev/null 2>&1; do
        seconds=$((seconds + 10))
        place=0
        for crate in $all; do
            place=$((place + 1))
            [ -e "$root/crates/$crate/out/rlib/stamp" ] || break
        done
        say "$seconds s; the next to be done is $crate, crate $place of $count"
    done
}

if ! is_current; then
    all=$(crates)
    count=$(echo "$all" | wc -l)
    say "proving and building $count crates; from nothing that takes 30 minutes on 4 processors, 60 on 2"
    mkdir -p -- "$app/out" && began=$(mktemp "$app/out/began.XXXXXX") || exit 70
    reporter=
    trap 'rm -f -- "$began"; [ -z "$reporter" ] || kill "$reporter" 2>/dev/null' EXIT
    trap 'exit 70' HUP INT PIPE TERM
    kit >"$began"
    report >/dev/null &
    reporter=$!
    # The program without words prints its usage on standard output; what rt says goes to standard error.
    case $(cd "$app" && rt run </dev/null) in
    usage:*) mv -f -- "$began" "$built" ;;
    *)
        say "it was not built, so nothing is run"
        exit 70
        ;;
    esac
    kill "$reporter"
    wait "$reporter" 2>/dev/null
    trap - EXIT HUP INT PIPE TERM
    say "built"
fi
exec "$program" "$@"
