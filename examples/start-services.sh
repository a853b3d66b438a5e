#!/bin/sh
# Starts two services and goes on as soon as both are ready. If one has failed for good, or they aren't both ready in time, it
# says so and ends with status 1.
#
#     examples/start-services.sh             starts a hub of its own, which ends with it
#     examples/start-services.sh SOCKET      uses the hub that listens at SOCKET; it needs four of its sessions
#
# From the environment: DB and WEB are the commands that make the two services ready, or fail. PATIENCE is how long the wait may
# take, such as 5s. FTRIGHUB is the program, or else it is `ftrighub` on the path.
set -u
ftrighub=${FTRIGHUB:-ftrighub}
command -v "$ftrighub" >/dev/null || { echo "start-services: can't run $ftrighub; FTRIGHUB may name the program" >&2; exit 1; }
db=${DB:-sleep 0.2}
web=${WEB:-sleep 0.4}
patience=${PATIENCE:-5s}
work=$(mktemp -d) || exit 1
socket=${1:-$work/hub}
hub=

clean_up() {
    [ -z "$hub" ] || kill "$hub" 2>/dev/null
    rm -rf "$work" # the hub leaves its socket file
}
trap clean_up EXIT
trap 'exit 1' HUP INT TERM

fail() {
    echo "start-services: $1" >&2
    exit 1
}

# start NAME COMMAND..: runs what makes a service ready, and publishes how it goes, as a supervisor does. All its letters go
# over one connection. The script reports a fault of it at the end: if it gives up, its hub ends before the services do.
start() {
    name=$1
    shift
    {
        echo "pub $name u"
        if "$@" </dev/null >&2; then echo "pub $name U"; else echo "pub $name dOD"; fi
    } | "$ftrighub" call "$socket" 2>>"$work/faults" | grep '^no ' >&2 &
}

if [ $# -eq 0 ]; then
    # Four sessions: one makes the services, each of them publishes in one, and one waits.
    "$ftrighub" serve "$socket" --sessions 4 &
    hub=$!
fi

# Makes the services, without `evict`: few letters are sent, and no client that subscribes may miss one. The hub listens a
# moment after it was started, so this retries until it can connect. The letter `s` is published before the wait begins: if
# the hub is an old one, it ends whatever the services were before.
tries=0
until made=$(printf 'svc db 64 1000000000000 1\nsvc web 64 1000000000000 1\npub db s\npub web s\n' | "$ftrighub" call "$socket" 2>/dev/null); do
    tries=$((tries + 1))
    [ "$tries" -lt 50 ] || fail "no hub answers at $socket"
    sleep 0.1
done
refused=$(echo "$made" | grep '^no ' | grep -v -x 'no exists')
[ -z "$refused" ] || fail "the hub refused to make the services: $refused"

start db sh -c "$db"
start web sh -c "$web"

# One request subscribes to both services, then looks at their status, then waits: no change falls between. If they aren't both
# ready in the end, the program says which isn't.
"$ftrighub" wait --socket "$socket" all ready --for "$patience" db web >/dev/null
case $? in
0) echo "start-services: db and web are ready" ;;
4) fail "a service has failed and won't be restarted" ;;
5) fail "db and web aren't both ready after $patience" ;;
*) fail "the hub can't tell whether db and web are ready" ;;
esac

# Here goes what needs both services.

wait # for the last replies, and for the hub, which ends with its fourth session
hub=
cat "$work/faults" >&2
