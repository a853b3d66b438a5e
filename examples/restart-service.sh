#!/bin/bash
# Restarts a service, and ends as soon as it is ready again. If it fails for good, or isn't ready in time, the script says so and
# ends with status 1.
#
#     examples/restart-service.sh SOCKET NAME COMMAND..
#
# COMMAND restarts the service NAME, for example `s6-svc -r DIR`; its letters come to the hub at SOCKET, for example by
# s6-bridge.sh. The script takes one of the hub's sessions. From the environment: PATIENCE is how many tenths of a second it
# waits, 300 if it isn't given. READY is the letter to wait for, `u` for a service that doesn't report readiness. FTRIGHUB is the
# program, or else it is `ftrighub` on the path.
set -u
[ $# -ge 3 ] || {
    echo "usage: restart-service.sh SOCKET NAME COMMAND.." >&2
    exit 2
}
ftrighub=${FTRIGHUB:-ftrighub}
command -v "$ftrighub" >/dev/null || { echo "restart-service: can't run $ftrighub; FTRIGHUB may name the program" >&2; exit 1; }
socket=$1
name=$2
shift 2
patience=${PATIENCE:-300}
trap '' PIPE

fail() {
    echo "restart-service: $1" >&2
    exit 1
}

# ask LINE: sends a request, and leaves the reply in $reply.
ask() {
    { echo "$1" >&"$lines"; } 2>/dev/null && IFS= read -r reply <&"$replies" || fail "no hub answers at $socket"
}

coproc SESSION { exec "$ftrighub" call "$socket" 2>/dev/null; }
lines=${SESSION[1]-} replies=${SESSION[0]-} # neither, if it has ended

# The listener is subscribed once the hub has replied. So it hears the fall, however soon the command brings it about: `s`, `d`
# or `D`, and then the letter for readiness, or `O` if the service won't be restarted.
ask "listen $name once [sdD].*[${READY:-U}O]"
[[ $reply == ok\ * ]] || fail "listen $name: $reply"
id=${reply#ok }

"$@" || fail "the command failed: $*"

ask "poll $id"
while [ "$reply" = none ] && [ "$patience" -gt 0 ]; do
    patience=$((patience - 1))
    sleep 0.1
    ask "poll $id"
done
case $reply in
hit\ *O) fail "$name has failed, and won't be restarted" ;;
hit\ *) echo "restart-service: $name is ready again" ;;
none) fail "$name isn't ready again in time" ;;
*) fail "poll: $reply" ;;
esac
