# Starts a program of this repository, and proves and builds it first if it is out of date. Scripts source this file, which
# prints nothing by itself.
# shellcheck shell=bash
# `start CRATE CALLER ARGUMENT..` starts the program of that crate with these arguments, and says in the name of the caller
# what it does before. The caller sets `trial`: the arguments for `rt run`, with which the built program ends well.
# The exit status is the program's, or 2 if it could not be built.

root=$(dirname -- "$(readlink -f -- "${BASH_SOURCE[0]}")")

# The crate and all crates below it, the lowest first, by crates.txt. A word without a line there names a library of the kit.
crates_below() {
    local -A uses=() seen=()
    local line
    while read -r line || [[ -n $line ]]; do
        line=${line%%#*}
        [[ $line != *:* ]] || uses[${line%%[: ]*}]=${line#*:}
    done <"$root/crates.txt"
    list_from "$crate"
}

# Lists a crate and those below it, without the ones already listed.
list_from() {
    local name
    [[ -n ${uses[$1]+listed} && -z ${seen[$1]+seen} ]] || return 0
    seen[$1]=1
    # shellcheck disable=SC2086 # the words of a line of crates.txt
    for name in ${uses[$1]}; do
        list_from "$name"
    done
    echo "$1"
}

# One sum over the names and contents of all files that the program is made from.
sum_of_sources() {
    local -a parts=(crates.txt)
    local name part
    for name in $(crates_below); do
        for part in "crates/$name/"{src,specs,proofs}; do
            [[ ! -d $root/$part ]] || parts+=("$part")
        done
    done
    cd -- "$root" || return
    find "${parts[@]}" -type f -print0 | LC_ALL=C sort -z | xargs -0 sha256sum | sha256sum
}

# What the stamp holds: the sum of the sources, and that of the program built from them.
stamp_for() {
    printf '%s\n' "$1" "$(sha256sum <"$program")"
}

# Says on standard error what happens: on a terminal in one line, which the next message replaces.
say() {
    if [[ -t 2 ]]; then
        printf '\r\033[K%s: %s' "$caller" "$1" >&2
    else
        echo "$caller: $1" >&2
    fi
}

# Says which crate of how many the prover reads or proves, on a terminal how many of its functions are done, and when it builds
# the program. It reads what the prover prints, and repeats its last message if the prover prints nothing for half a minute.
show_progress() {
    local -a crates
    local -A place=()
    local name line status now='what is kept of the crates is read' before=''
    mapfile -t crates < <(crates_below)
    for name in "${crates[@]}"; do
        place[$name]="crate $((${#place[@]} + 1)) of ${#crates[@]}"
    done
    say "$now"
    while true; do
        status=0
        IFS= read -r -t 30 line || status=$?
        if ((status > 128)); then
            say "$now, $((SECONDS / 60)) minutes and $((SECONDS % 60)) seconds so far"
            continue
        fi
        ((status == 0)) || break
        before=$now
        if [[ $line =~ ^rt:\ chose\ .*\ for\ ([a-z0-9_]+)$ ]]; then
            name=${BASH_REMATCH[1]}
            now="$name, ${place[$name]-}: what is kept is read, and the rest is proved"
        elif [[ $line =~ ^checked\ ([a-z0-9_]+)::.*,\ ([0-9]+\ of\ [0-9]+)$ ]]; then
            name=${BASH_REMATCH[1]}
            now="$name is proved, ${place[$name]-}"
            [[ ! -t 2 ]] || now+=": function ${BASH_REMATCH[2]}"
        elif [[ $line == "crate $crate: "* ]]; then
            now='the program is built'
        fi
        [[ $now == "$before" ]] || say "$now"
    done
    [[ ! -t 2 ]] || printf '\r\033[K' >&2
}

# Whether the prover can write what it keeps, in the folder out/ of each crate.
can_write() {
    local name out
    for name in $(crates_below); do
        out=$root/crates/$name/out
        if ! mkdir -p -- "$out" 2>/dev/null || [[ ! -w $out ]]; then
            echo "$caller: $out can't be written, so the program can't be built" >&2
            return 1
        fi
    done
}

# Proves and builds the program, which `rt run` then runs too, here on no input and with the words of `trial`. What it prints goes
# to the file. The build has a process group of its own, which ends if this script is interrupted.
build() {
    local said=$1 builder watcher status=0
    set -m
    # shellcheck disable=SC2154 # the caller sets it
    (cd -- "$root/crates/$crate" && exec rt run "${trial[@]}" </dev/null >"$said" 2>&1) &
    builder=$!
    tail -n +1 -f --pid="$builder" -- "$said" 2>/dev/null | show_progress &
    watcher=$!
    set +m
    trap 'kill -TERM -- "-$builder" 2>/dev/null; rm -f -- "$said"; exit 130' INT TERM HUP
    wait "$builder" || status=$?
    wait "$watcher" || true
    trap - INT TERM HUP
    return "$status"
}

# See above.
start() {
    crate=$1 caller=$2
    shift 2
    program=$root/crates/$crate/out/$crate
    stamp=$root/crates/$crate/out/run-stamp
    local sources said
    sources=$(sum_of_sources)
    if [[ ! -x $program || ! -f $stamp || $(<"$stamp") != "$(stamp_for "$sources")" ]]; then
        if ! command -v rt >/dev/null; then
            echo "$caller: the command rt is not on PATH. It comes with Rattle's kit: put the kit's folder bin on PATH" >&2
            exit 2
        fi
        can_write || exit 2
        echo "$caller: proving and building $crate first: a good half hour, or a few minutes if its crates are proved" >&2
        said=$(mktemp) || exit 2
        if ! build "$said"; then
            cat -- "$said" >&2
            rm -f -- "$said"
            echo "$caller: $crate could not be built" >&2
            exit 2
        fi
        rm -f -- "$said"
        echo "$caller: built in $((SECONDS / 60)) minutes and $((SECONDS % 60)) seconds" >&2
        # The stamp comes last and is moved into place, so another run sees all of it or none.
        stamp_for "$sources" >"$stamp.$$"
        mv -f -- "$stamp.$$" "$stamp"
    fi
    exec "$program" "$@"
}
