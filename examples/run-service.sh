#!/bin/sh
# Runs a program as a service, and tells a hub when it is up, when it is ready, and when it has ended.
#
#     examples/run-service.sh NAME CHECK PROGRAM..
#
# NAME is the service at the hub; FTRIGHUB_SOCKET in the environment is the hub's socket. CHECK is a command of the shell that
# succeeds once PROGRAM is ready, such as `pg_isready -q`; the script tries it ten times a second. What it says while it fails is on
# standard error, every five seconds if it is new. HUP, INT and TERM end PROGRAM, and the script ends with its status. PROGRAM runs
# without a hub too. If the script is killed, the hub says that the service is down, and PROGRAM gets a TERM if there is a `setpriv` that
# can do that, as that of util-linux, and PROGRAM doesn't change its user.
#
# From the environment: FAILURE is the state to tell if PROGRAM ends by itself with another status than 0: `failed` if it isn't
# given; `down` is for a script that is started again. FTRIGHUB is the hub's program, or else it is `ftrighub` on the path.
set -u
[ $# -ge 3 ] || {
    echo "usage: run-service.sh NAME CHECK PROGRAM.." >&2
    exit 2
}
ftrighub=${FTRIGHUB:-ftrighub}
command -v "$ftrighub" >/dev/null || { echo "run-service: can't run $ftrighub; FTRIGHUB may name the program" >&2; exit 1; }
name=$1
check=$2
shift 2
program=
stopped=
reply=

# at_hub WORD..: a command of ftrighub at a hub that may not know the service yet. If the hub says why not, so does a line, once.
at_hub() {
    before=$reply
    "$ftrighub" make "$name" >/dev/null 2>&1
    reply=$("$ftrighub" "$@" 2>&1) || {
        [ "$reply" = "$before" ] || echo "run-service: $name: $reply" >&2
        return 1
    }
}

# is_on: whether the program is to be told of, and the script hasn't been killed.
# shellcheck disable=SC2317 # it runs in the background
is_on() {
    [ -z "$over" ] && kill -0 $$ 2>/dev/null
}

# pause SECONDS: sleeps, and not after a signal.
# shellcheck disable=SC2317 # it runs in the background
pause() {
    [ -z "$over" ] || return
    sleep "$1" >/dev/null 2>&1 &
    wait $!
}

# is_held: whether the last hold has not ended.
# shellcheck disable=SC2317 # it runs in the background
is_held() {
    [ -n "$holder" ] && kill -0 "$holder" 2>/dev/null
}

# hold STATE: has $holder tell this state, and hold it by descriptor 4, which ends when the script does. However that happens, the hub
# says then that the program is down.
# shellcheck disable=SC2317 # it runs in the background
hold() {
    "$ftrighub" hold "$name" --tell "$1" <&4 >/dev/null 2>&1 &
    holder=$!
}

# hold_anew STATE: tells first that the program is down, whatever the hub was told before. If the service were in the state already, the
# hold would tell nothing, and the hub wouldn't say at its end that the program is down.
# shellcheck disable=SC2317 # it runs in the background
hold_anew() {
    is_on && at_hub tell "$name" down && hold "$1"
}

# pass_on: holds that the program is ready, and ends the hold of its being up as soon as the hub has been told.
# shellcheck disable=SC2317 # it runs in the background
pass_on() {
    first=$holder
    hold ready
    while is_held; do
        case $("$ftrighub" ask status "$name" 2>/dev/null) in
        "ok "*" 7 open") break ;;
        esac
        pause 0.1
    done
    { kill "$first" && wait "$first"; } 2>/dev/null
}

# is_ready: whether CHECK succeeds. If it doesn't in the first of fifty turns, what it said is printed, unless that was printed last.
# shellcheck disable=SC2317 # it runs in the background
is_ready() {
    [ "$turn" -eq 0 ] || {
        sh -c "$check" >/dev/null 2>&1
        return
    }
    before=$said
    said=$(sh -c "$check" 2>&1) && return
    [ -z "$said" ] || [ "$said" = "$before" ] || printf 'run-service: %s: CHECK: %s\n' "$name" "$said" >&2
    return 1
}

# tell_all: holds that the program is up, and once it is ready, that. A restarted hub is empty, so it is told again: within five seconds
# that the program is up, and within a second that it is ready. It ends after TERM, or if descriptor 4 has ended.
# shellcheck disable=SC2317 # it runs in the background
tell_all() {
    turn=0
    until is_ready; do
        [ "$turn" -ne 0 ] || is_held || hold_anew up
        turn=$(((turn + 1) % 50))
        pause 0.1
        is_on || return
    done
    if is_held; then pass_on; else hold_anew ready; fi
    until { [ -n "$holder" ] && wait "$holder"; } || ! is_on; do
        pause 1
        hold_anew ready
    done
}

# report: tells the hub of the program until TERM. It ends when its holds have, so nothing is told after what the script tells at last.
# shellcheck disable=SC2317 # it runs in the background
report() {
    exec 3>&- # (`report 3>&-` would keep it, to open it again)
    over=
    holder=
    said=
    trap 'over=yes' TERM
    trap '' HUP INT
    tell_all
    wait
}

# stop SIGNAL: ends the program, if it runs yet.
# shellcheck disable=SC2317 # the traps call it
stop() {
    stopped=$1
    [ -z "$program" ] || kill "-$1" "$program" 2>/dev/null
}

# await PROCESS: waits until it has ended, whatever signals come, and leaves its status in $status.
await() {
    wait "$1"
    status=$?
    while kill -0 "$1" 2>/dev/null; do
        wait "$1"
        status=$?
    done
}

# Only this shell can write to the pipe, so it ends when this shell does.
folder=$(mktemp -d) && mkfifo "$folder/alive" || exit 1
# shellcheck disable=SC2094 # it is a pipe
exec 3<>"$folder/alive" 4<"$folder/alive"
rm -r "$folder"
report &
reporter=$!
exec 4<&-
trap 'stop HUP' HUP
trap 'stop TERM' INT TERM
# The system sends the TERM when this shell ends. The line in quotes looks whether it had ended before.
# shellcheck disable=SC2016 # that line is for the shell that it starts
! setpriv --pdeathsig TERM true 2>/dev/null || set -- setpriv --pdeathsig TERM sh -c '[ "$PPID" -eq "$0" ] && exec "$@"' $$ "$@"
"$@" 3>&- &
program=$!
[ -z "$stopped" ] || stop "$stopped"
await "$program"
ended=$status
kill "$reporter"
exec 3>&-
await "$reporter"
if [ "$ended" -eq 0 ] || [ -n "$stopped" ]; then final=down; else final=${FAILURE:-failed}; fi
at_hub tell "$name" "$final"
exit "$ended"
