# shellcheck shell=sh
# How a script ends, after an interruption too. The scripts that a user starts, and common.sh, source it.

beside=
temporary=

# Ends the script as a signal does. The command that runs beside it is ended first, so that nothing of it is left.
end_by_signal() {
    trap '' HUP INT TERM
    if [ -n "$beside" ]; then
        kill -TERM "$beside" 2>/dev/null || true
        wait "$beside" 2>/dev/null || true
    fi
    exit "$1"
}

# Has the temporary file or folder of this name removed at the end.
remove_at_end() {
    temporary=$1
    trap 'rm -rf "$temporary"' EXIT
    trap 'end_by_signal 129' HUP
    trap 'end_by_signal 130' INT
    trap 'end_by_signal 143' TERM
}

# Runs a command on the script's input, and ends with its status. A signal to the script alone ends both at once: for a command before
# which the script waits, the shell would put the signal off.
run_beside() {
    # what runs beside a script would have no input else
    if [ -e /dev/fd/0 ]; then exec 3<&0; else exec 3</dev/null; fi
    "$@" <&3 3<&- &
    beside=$!
    exec 3<&-
    status=0
    wait "$beside" || status=$?
    beside=
    return "$status"
}
