# Read by plift and plift-view: answers what needs no program at once, and runs the program. In a checkout
# tools/build.sh finds or makes it; in an unpacked release and where plift is installed, tools/made.sh finds
# it. The script that reads this has set `name`, which it is called by, and `top`, the folder of all else.

. "$top/tools/child.sh"

say() { printf '%s: %s\n' "$name" "$*" >&2; }

fail() {
    say "$*"
    exit 70
}

# Ends as the program does where it can't write.
fail_to_write() {
    printf 'write fault\n' >&2
    exit 6
}

# Shows the help of a command and ends.
show_help() {
    [ -r "$top/man/help/$1.txt" ] || fail "its help isn't found in $top/man/help"
    cat "$top/man/help/$1.txt" 2>/dev/null || fail_to_write
    exit 0
}

show_version() {
    { read -r version <"$top/VERSION"; } 2>/dev/null || version='of an unknown version'
    commit=$(commit_of_sources)
    { printf '%s %s (%s%s)\n' "$name" "$version" "${commit:+commit $commit, }" "$(kind_of_program)"; } 2>/dev/null ||
        fail_to_write
    exit 0
}

# Answers a request for help or for the version. A line of a command with the word --help in it is one,
# since no line that the program takes has that word.
answer() {
    case $#:${1-} in
    1:--version) show_version ;;
    1:--help | 1:-h | 1:help) show_help "$name" ;;
    2:--help | 2:-h | 2:help) is_command "$2" && show_help "$2" ;;
    esac
    for word; do
        case $word in
        --help | -h)
            if [ "$name" = plift-view ]; then
                show_help plift-view
            elif is_command "$1"; then
                show_help "$1"
            fi
            ;;
        esac
    done
}

is_command() {
    [ "$name" = plift ] || return 1
    case $1 in
    verify | bounded | property | cost | lumped | check | migrate | refine | generate | selftest) ;;
    *) return 1 ;;
    esac
}

# Refuses a line that needs no program to be refused, as the program would.
refuse_plain_faults() {
    if command -v python3 >/dev/null 2>&1; then
        python3 "$top/tools/line.py" "$name" "$@" </dev/null
        [ $? -ne 2 ] || exit 2
    elif [ $# -eq 0 ]; then
        printf '%s\n' 'usage: words' >&2
        exit 2
    fi
}

# Says what is waited for where standard input is a terminal. A line without a goal and a bound is refused at once.
announce_input() {
    case "$name $*" in
    'plift verify '*--goal*--bound* | 'plift verify '*--bound*--goal* | 'plift bounded '*--goal* | \
        'plift property '*--formula* | 'plift cost '*--budget* | 'plift lumped '*--goal*--bound* | \
        'plift lumped '*--bound*--goal*)
        say 'reading the model from standard input; give a file by < model.drn'
        ;;
    'plift check' | 'plift migrate' | 'plift refine --depth'* | plift-view*)
        say 'reading the report from standard input; give a file by < report'
        ;;
    esac
}

# Whether a refusal gets hints: at a terminal, unless PLIFT_HINTS is 0, and elsewhere where it is 1. The streams
# that are handed on have to be open, and `plift-view --follow` looks itself whether standard error is a terminal.
wants_hints() {
    case ${PLIFT_HINTS-} in
    1) ;;
    0) return 1 ;;
    *) [ -t 2 ] || return 1 ;;
    esac
    [ "${1-}" != --follow ] && [ -r "$top/tools/hints.py" ] && [ -e /proc/self/fd/0 ] && [ -e /proc/self/fd/2 ]
}

# Copies what the program wrote to standard error, and keeps it in `note`.
copy_note() {
    note=
    while IFS= read -r line; do
        printf '%s\n' "$line" >&2
        note=$note$line$newline
    done
    printf '%s' "$line" >&2
    note=$note$line
}

# Runs the program, with its notes where they are copied from.
run_noted() {
    exec "$program" "$@" 2>&9 8<&- 9>&-
}

# Tells at a terminal how far a report has come that goes to a file.
watch_report() {
    watcher=
    [ -t 2 ] && [ -f /proc/self/fd/1 ] && [ -r "$top/tools/watch.py" ] || return 0
    case "$name ${1-}" in
    'plift verify' | 'plift bounded' | 'plift property' | 'plift cost' | 'plift lumped' | 'plift refine') ;;
    *) return 0 ;;
    esac
    command -v python3 >/dev/null 2>&1 || return 0
    python3 "$top/tools/watch.py" </dev/null 8<&- 9>&- &
    watcher=$!
}

# Ends what tells it; where the program was stopped, it says what stands.
end_watch() {
    [ -n "$watcher" ] || return 0
    how=TERM
    [ -z "$ended_by" ] || how=USR1
    { kill -s "$how" "$watcher"; wait "$watcher"; } 2>/dev/null
}

# Runs the program as a child, and adds hints to a refusal. Signals and statuses are those of the program. It
# writes its note last of all, so the note is copied when the program has ended.
run_with_hints() {
    newline='
'
    exec 8<<BLANK

BLANK
    # The shell has put the blank line above into a pipe or a file without a name, which takes what is appended, too.
    [ -w /proc/self/fd/8 ] || exec "$program" "$@" 8<&-
    exec 9>>/proc/self/fd/8
    read -r note <&8
    watch_report "$@"
    run_child run_noted "$@"
    end_watch
    exec 9>&-
    copy_note <&8
    end_by_signal
    if [ "$status" -ne 0 ] && command -v python3 >/dev/null 2>&1; then
        # Python doesn't start where standard input is a folder.
        [ ! -d /proc/self/fd/0 ] || exec </dev/null
        PLIFT_PROGRAM=$name PLIFT_NOTE=${note%"$newline"} python3 "$top/tools/hints.py" "$status" -- "$@" 8<&- || :
    fi
    exit "$status"
}

# Keeps what comes through a pipe in a file without a name, which is read in its place.
keep_pipe() {
    copy=$(mktemp 2>/dev/null) || return 1
    exec 8>"$copy" 9<"$copy"
    rm -f -- "$copy"
    cat >&8 || fail 'what comes through the pipe finds no room in a file: give a file by < instead'
    exec <&9 8>&- 9<&-
}

# Whether plift-lab says in a file beside the report that its parameters were rescaled.
is_rescaled() {
    beside=$(readlink /proc/self/fd/0 2>/dev/null).json
    [ -f "$beside" ] && [ -r "$beside" ] && ! grep -q '^"scale": {},\{0,1\}$' "$beside"
}

# Shows a text of `bounded`, `property` or `cost`, which the program doesn't read, and a rescaled report in the user's own numbers: a
# script judges it and draws it. Its first line tells which text it is.
show_other_text() {
    case " $* " in
    *' --follow '*) return ;;
    esac
    command -v python3 >/dev/null 2>&1 && [ -r "$top/tools/draw.py" ] || return 0
    [ ! -p /dev/stdin ] || keep_pipe || return 0
    [ -f /dev/stdin ] || return 0
    case $(head -c 17 </dev/stdin 2>/dev/null | head -n 1) in
    'plift-bounded 1' | 'plift-property 1' | 'plift-property 2' | 'plift-cost 1') exec python3 "$top/tools/draw.py" "$@" ;;
    'plift 1' | 'plift 2') ! is_rescaled || exec python3 "$top/tools/draw.py" "$@" ;;
    esac
}

open_door() {
    quick=
    if [ "${1-}" = --quick ]; then
        quick=yes
        shift
    fi
    if [ -r "$top/programs/made" ]; then
        . "$top/tools/made.sh"
    else
        . "$top/tools/build.sh"
    fi
    answer "$@"
    if [ "$name" = plift-view ]; then
        show_other_text "$@"
    fi
    find_program "$@"
    if [ -t 0 ]; then
        announce_input "$@"
    fi
    if wants_hints "$@"; then
        run_with_hints "$@"
    fi
    exec "$program" "$@"
}
