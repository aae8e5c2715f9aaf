# Read by tools/door.sh in a checkout: finds the program, and makes it where it isn't built yet or a source is
# newer. The proved one is made by the kit's command `rt` (tools/build.py), the one that isn't proved by cargo
# (tools/quick.py).

case $name in
plift-view) crate=plift_view ;;
*) crate=$name ;;
esac
if [ -n "$quick" ]; then
    program=$top/build/quick/$name
else
    program=$top/crates/$crate/out/$crate
fi
# The crates that the program stands on, in a line; the file bears the time at which all sources are to be looked
# at again. The other file is written at each start, to know the time without another process.
looked=$top/build/$crate.looked
started=$top/build/$crate.started

# The crates that crate $1 stands on, and itself.
crates() {
    awk -F: -v last="$1" '
        /^[a-z]/ { needs[$1] = $2 }
        function visit(name, parts, n, i) {
            if (name in seen || !(name in needs)) return
            seen[name] = 1
            printf "%s ", name
            n = split(needs[name], parts, " ")
            for (i = 1; i <= n; i++) visit(parts[i])
        }
        END { visit(last) }
    ' "$top/crates.txt"
}

# Whether the code of these crates, or what its contracts say, is newer than the program. This takes no process:
# the usual shells have -nt, and POSIX has it since 2024.
is_code_newer() {
    [ "$top/crates.txt" -nt "$program" ] && return 0
    for below; do
        for source in "$top/crates/$below"/src/*.rt "$top/crates/$below"/specs/*.antt; do
            [ "$source" -nt "$program" ] && return 0
        done
    done
    return 1
}

# Whether a source of these crates is newer than the program, proofs and all.
is_source_newer() {
    folders=$*
    set -- "$top/crates.txt"
    for below in $folders; do
        set -- "$@" "$top/crates/$below"
    done
    newer=$(find "$@" -name out -prune -o -type f \( -name '*.rt' -o -name '*.antt' -o -name crates.txt \) \
        -newer "$program" -print)
    [ -n "$newer" ]
}

# Whether a source is newer than the proved program. Proofs, on which no byte of the program depends, are looked at
# once a minute, and where other sources have changed. That a source was removed isn't seen, nor one that was put
# there with an older time.
is_stale() {
    # Another user's checkout may not be written in; `true` is no special builtin, so the shell goes on.
    { true >"$started"; } 2>/dev/null
    if [ -f "$looked" ] && ! [ "$started" -nt "$looked" ] && read -r known <"$looked"; then
        is_code_newer $known || return 1
    fi
    known=$(crates "$crate")
    is_source_newer $known && return 0
    { mkdir -p "$top/build" && printf '%s\n' "$known" >"$looked" && touch -d '1 minute' "$looked"; } 2>/dev/null
    return 1
}

# Whether something is newer that the program without proofs is made from.
is_quick_stale() {
    newer=$(find "$top/crates.txt" "$top/tools/quick.py" "$top/tools/native" "$top"/crates/*/src -newer "$program")
    [ -n "$newer" ]
}

# What the program is: proved, quick or not built, and whether a source is newer.
kind_of_program() {
    if ! [ -x "$program" ]; then
        echo 'not built'
    elif [ -n "$quick" ]; then
        is_quick_stale && echo 'quick, sources are newer' || echo quick
    else
        is_stale && echo 'proved, sources are newer' || echo proved
    fi
}

# The commit that is checked out, if git tells one.
commit_of_sources() {
    [ -e "$top/.git" ] && commit=$(git -C "$top" rev-parse --short=7 HEAD 2>/dev/null) || return 0
    git -C "$top" diff --quiet HEAD -- crates crates.txt 2>/dev/null || commit="$commit with changes"
    printf '%s\n' "$commit"
}

find_program() {
    if [ -n "$quick" ]; then
        find_quick "$@"
    elif ! [ -x "$program" ]; then
        refuse_plain_faults "$@"
        say 'the proved program is not built yet'
        build "$@"
    elif is_stale; then
        refuse_plain_faults "$@"
        say 'the sources are newer than the proved program'
        build "$@"
    fi
}

find_quick() {
    [ -x "$program" ] && ! is_quick_stale && return
    refuse_plain_faults "$@"
    require python3 'quick.py needs it'
    run_child python3 "$top/tools/quick.py" "$name" </dev/null >/dev/null
    end_by_signal
    [ "$status" -eq 0 ] || exit 70
}

require() {
    command -v "$1" >/dev/null 2>&1 || fail "$1 is not on the PATH: $2"
}

# Makes the proved program.
build() {
    now="for an answer now, without a proof of the program: $0 --quick ${1-} .."
    command -v rt >/dev/null 2>&1 || fail "the command rt of the Rattle kit is not on the PATH; $now"
    require python3 'tools/build.py needs it'
    case $name in
    plift) say "$now (its reports can be checked: python3 recheck/recheck.py, or plift check)" ;;
    *) say "$now" ;;
    esac
    run_child python3 "$top/tools/build.py" "$crate" "$top/build/logs" </dev/null >&2
    end_by_signal
    [ "$status" -eq 0 ] || exit 70
    [ -x "$program" ] || fail "it was not built; see $top/build/logs"
}
