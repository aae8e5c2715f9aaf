# Read by tools/door.sh and ./install: runs a command as a child that doesn't outlive this script.

# Passes on to the child that this script is to end, by a signal that the child hears: what runs in the
# background doesn't hear INT and QUIT, and programs of ours pass PIPE over.
pass_signal() {
    ended_by=$1
    [ -z "$child" ] || kill -s "$2" "$child" 2>/dev/null
}

# Runs a command on this script's standard input, and sets `status` to what it ends with; `ended_by` to the signal by
# which this script was told to end meanwhile. Then the child has ended, too.
run_child() {
    child='' ended_by=''
    trap 'pass_signal HUP HUP' HUP
    trap 'pass_signal INT TERM' INT
    trap 'pass_signal QUIT TERM' QUIT
    trap 'pass_signal TERM TERM' TERM
    trap 'pass_signal PIPE TERM' PIPE
    # In the background standard input is empty, unless it is given.
    if [ -e /proc/self/fd/0 ]; then
        exec 7<&0
        "$@" <&7 7<&- &
    else
        "$@" <&- &
    fi
    child=$!
    [ -z "$ended_by" ] || kill "$child"
    # Shells tell by which signal a child has died, but whoever waits for this script is to tell it. A signal for
    # this script ends a wait.
    { wait "$child"; status=$?; while [ -n "$ended_by" ] && kill -0 "$child"; do wait "$child"; done; } 2>/dev/null
    child=''
    exec 7<&-
    trap - HUP INT QUIT TERM PIPE
}

# Ends this script by the signal by which it was told to end, or its child has ended, if it was one.
end_by_signal() {
    if [ -z "$ended_by" ] && [ "$status" -gt 128 ]; then
        ended_by=$(kill -l "$status")
    fi
    [ -n "$ended_by" ] || return 0
    ulimit -c 0
    kill -s "$ended_by" $$
    # Bash passes QUIT over.
    [ "$ended_by" != QUIT ] || exit 131
    exit "$status"
}
