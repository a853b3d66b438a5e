#!/bin/bash
# Carries every letter that s6-supervise sends for a service over to a hub, in order, each once.
#
#     examples/s6-bridge.sh SERVICEDIR SOCKET [NAME]
#
# NAME is the service's name at the hub, or SERVICEDIR's last part if it isn't given. The bridge takes one of the hub's
# sessions. FTRIGHUB in the environment is the program, or else `ftrighub` on the path. READY_FD is a descriptor that gets a
# newline once the hub has the service, if it is given. The bridge runs until it is killed, and then the hub says that the service
# is down and not supervised. If the hub ends, the bridge connects to the next hub at SOCKET. See docs/manual/s6-bridge.md, or
# `man ftrighub-s6-bridge`.
set -u
[ $# -eq 2 ] || [ $# -eq 3 ] || {
    echo "usage: s6-bridge.sh SERVICEDIR SOCKET [NAME]" >&2
    exit 2
}
LC_ALL=C
ftrighub=${FTRIGHUB:-ftrighub}
service=$1
socket=$2
name=${3:-$(basename "$service")}
[[ $name =~ ^[A-Za-z0-9_.-]{1,32}$ ]] || {
    printf 's6-bridge: %q is no name of a fifodir\n' "$name" >&2
    exit 2
}
command -v "$ftrighub" >/dev/null || { echo "s6-bridge: can't run $ftrighub; FTRIGHUB may name the program" >&2; exit 1; }
{ read -r parent <"/proc/$PPID/comm"; } 2>/dev/null || parent=
reports=0
[ ! -f "$service/notification-fd" ] || reports=1
pipe=
work=
session=
count=0  # how many events the hub has, as far as this bridge knows
seen=    # letters that were read, and that the hub may not have
failed=? # O if the service failed for good, as far as this bridge has read, or ? before it has read anything of that
anew=    # yes until this session of the hub has settled
told=    # letters that the look had already, and that may still come
letter=
quiet=0

# A service is at a stage, named by a letter: `x` without a supervisor, `s` wholly down, `u` up, `U` ready, `d` while its finish
# script runs. Here are the least letters that lead from the hub's stage to the service's own.
declare -A ways=(
    [xs]=s [xu]=su [xU]=suU [xd]=sud
    [sx]=x [su]=u [sU]=uU [sd]=ud
    [ux]=dDx [us]=dD [uU]=U [ud]=d
    [Ux]=dDx [Us]=dD [Uu]=dDu [Ud]=d
    [dx]=Dx [ds]=D [du]=Du [dU]=DuU
)
stages=([4]=d [5]=u [6]=s [7]=U) # by the flags up, settled and supervised of the hub's code; `x` for the others

clean_up() {
    [ -z "$pipe" ] || rm -f "$pipe"
    [ -z "$session" ] || kill "$session" 2>/dev/null
    [ -z "$work" ] || rm -rf "$work"
}
trap clean_up EXIT
trap 'exit 1' HUP INT TERM
trap '' PIPE

tell() {
    printf 's6-bridge: %s: %s\n' "$name" "$1" >&2
}

fail() {
    tell "$1"
    exit 1
}

# is_orphan: whether the s6-supervise that started this bridge has ended. The next one starts a bridge of its own.
is_orphan() {
    local fields
    [ "$parent" = s6-supervise ] && read -r -a fields <"/proc/$$/stat" && [ "${fields[3]}" != "$PPID" ]
}

# disconnect: lets go of a session that has ended.
disconnect() {
    exec 4>&- 5<&-
    kill "$session" 2>/dev/null
    wait "$session" 2>/dev/null
    session=
}

# connect: begins a session, over two pipes, as soon as a hub answers. No pipe waits here for its other end, and the session
# ends with the bridge, however that ends.
connect() {
    local said=
    work=$(mktemp -d) && mkfifo "$work/lines" "$work/replies" || exit 1
    until is_orphan; do
        # shellcheck disable=SC2094 # both ends of a pipe
        exec 4<>"$work/lines" 6<>"$work/replies" 5<"$work/replies"
        "$ftrighub" call "$socket" <"$work/lines" >&6 2>/dev/null 3>&- 4>&- 5<&- 6>&- &
        session=$!
        exec 6>&-
        ask "status $name" && rm -rf "$work" && work= && return
        disconnect
        [ -n "$said" ] || tell "no hub answers at $socket; trying again"
        said=yes
        sleep 0.5
    done
    fail "its s6-supervise has ended"
}

# ask LINE: sends a request, and leaves the reply in $reply. While the hub has no room or no memory for it, it tries again, and
# the pipe keeps what s6-supervise sends, 64 KiB of it. It fails if the session has ended.
ask() {
    while { echo "$1" >&4; } 2>/dev/null && IFS= read -r reply <&5; do
        [[ $reply == 'no full' || $reply == 'no memory' ]] || return 0
        sleep 0.1
    done
    return 1
}

# subscribe: as libftrigr does, makes a pipe in the fifodir. It is open for reading before it has a name that notifiers look
# for, ftrig1:@ with 39 bytes in all. It is open for writing too, so that it never ends.
subscribe() {
    local events=$service/event hidden stamp
    [ -d "$events" ] || s6-mkfifodir "$events" || [ -d "$events" ] || exit 1 # (s6-supervise may make it too)
    stamp=$(echo | s6-tai64n | cut -c 1-25)
    hidden=$events/.ftrig1:$stamp.$$
    mkfifo -m 0622 "$hidden" || exit 1
    exec 3<>"$hidden"
    pipe=$(printf '%s/ftrig1:%s:%06d' "$events" "$stamp" "$(($$ % 1000000))")
    mv "$hidden" "$pipe" || exit 1
}

# next: leaves the next letter of the pipe in $letter. It fails if none comes within a second. When the time is over, `read`
# fails also if it has just read a letter: so only the variable tells.
next() {
    letter=
    IFS= read -r -t 1 -N 1 letter <&3
    [ -n "$letter" ] || return
    case $letter in
    O) failed=O ;;
    [su]) failed= ;;
    esac
}

# drain: adds to $seen the letters that are in the pipe.
drain() {
    while read -r -t 0 <&3 && next; do seen+=$letter; done
}

# look: leaves in $stage the stage of the service as s6 has it. A service that is down and `ready` is wholly down: its finish
# script has ended too.
look() {
    local text status
    text=$(s6-svstat "$service" 2>&1)
    status=$?
    case $status:$text in
    0:"up "*", ready "*) stage=U ;;
    0:"up "*) stage=u ;;
    0:"down "*", ready "*) stage=s ;;
    0:"down "*) stage=d ;;
    1:* | *": No such file or directory") stage=x ;; # no s6-supervise, or it is about to write its status
    *) fail "s6-svstat ended with status $status: $text" ;;
    esac
}

# ask_status: leaves in $number how many events the hub has, and in $known the stage of the service there.
ask_status() {
    ask "status $name" || return
    [[ $reply =~ ^ok\ ([0-9]+)\ ([0-9]+)\ open$ ]] || fail "status: $reply"
    number=${BASH_REMATCH[1]}
    code=${BASH_REMATCH[2]}
    known=${stages[code & 7]-x}
}

# settle: leads the hub to the stage that the service has. It fails if the session has ended.
#
# The order matters. The letters that were sent before the look are told by it; where some came during the look, it looks again.
# The hub's status comes after that, and then one message for what is different. All further letters wait in the pipe.
settle() {
    drain
    local before=
    until
        before=$seen
        look
        drain
        [ "$seen" = "$before" ]
    do :; done
    [[ $seen != *x ]] || stage=x # s6-supervise sends it and then ends, and s6-svstat may have come between
    ask_status || return
    word=${ways[$known$stage]-}
    # It fell and is back: the least letters don't say so.
    [[ $stage == x || $seen != *[sdD]* || $word == *[sdD]* ]] || word=${ways[x$stage]}
    # The hub carries out a will only where the last letter is this session's own.
    [[ -z $anew || -n $word || $stage != [uU] ]] || word=${ways[x$stage]}
    anew=
    local fails=$failed
    if [ "$failed" = '?' ]; then
        # What the hub knew of a service that is wholly down still holds.
        fails=
        [[ $stage != s || $((code & 8)) -eq 0 ]] || fails=O
    fi
    [[ $stage == x || -z $fails || ($word != *[su]* && $((code & 8)) -ne 0) ]] || word+=O
    count=$number
    if [ -n "$word" ]; then
        ask "pub $name $word" || return
        [[ $reply =~ ^ok\ ([0-9]+)$ ]] || fail "letters $word: $reply"
        count=$((BASH_REMATCH[1] + ${#word}))
    fi
    seen=
    quiet=0
    told=uUdD
    [ "$word" != s ] || told+=s
}

# settle_anew WHY: does so once more, since the hub isn't as the bridge has left it, and says what it published.
settle_anew() {
    settle || return
    tell "$1; looked again, and published ${word:-nothing}"
}

# carry: publishes $letter. It fails if the session has ended.
#
# s6-supervise writes its status and then sends the letters for it, so the look may have had the first message after it. That is
# one letter, or `dD`, or `OD`, of which a look shows no `O`. The hub refuses what it has already, but for an `s`.
carry() {
    local had=$told
    told=
    quiet=0
    case $letter in
    s) [[ $had != *s* ]] || return 0 ;;
    [dO]) [[ $had != *d* ]] || told=D ;;
    [uUDx]) ;;
    *)
        tell "$(printf 'passed over a byte that s6-supervise never sends: %q' "$letter")"
        return 0
        ;;
    esac
    ask "pub $name $letter" || {
        seen=$letter
        return 1
    }
    case $reply in
    "ok $count")
        count=$((count + 1))
        ;;
    ok\ *) settle_anew "somebody else publishes at this service" ;;
    'no unlawful 0') [[ $had == *"$letter"* ]] || settle_anew "the hub refused the letter $letter, which can't follow" ;;
    *) fail "letter $letter: $reply" ;;
    esac
}

# check: once a second without a letter, sees that the session and the pipe are there, and that nobody else has published. After
# five such seconds it looks, since a supervisor that is killed sends no letter.
check() {
    told=
    [ -p "$pipe" ] || fail "its pipe in $service/event was removed"
    ask_status || return
    if [ "$number" != "$count" ]; then
        settle_anew "somebody else publishes at this service"
        return
    fi
    quiet=$((quiet + 1))
    [ $((quiet % 5)) -eq 0 ] || return 0
    look
    if [ "$stage" = "$known" ]; then return 0; fi
    if next; then carry; else settle_anew "s6 sent no letter for a change"; fi
}

# begin: makes the service at the hub, and leaves a will for it: if this session ends, nobody knows how the service is. It fails if
# the session has ended. The service evicts clients that don't take their letters: one of them would else keep the bridge, and with
# it every wait, from the letters that follow.
begin() {
    anew=yes
    ask "svc $name 4096 1000000000000 $reports evict" || return
    case $reply in
    ok) ;;
    'no exists')
        ask "about $name" || return
        case $reply in
        "ok svc $reports "*) ;;
        'ok svc '*) fail "the hub has a service of this name with another R, not $reports" ;;
        'ok dir '*) fail "the hub has a fifodir of this name that is no service's" ;;
        *) fail "about: $reply" ;;
        esac
        ;;
    *) fail "$reply" ;;
    esac
    ask "will $name off" || return
    [ "$reply" = ok ] || fail "will: $reply"
}

# follow: carries letter after letter, until the session has ended.
follow() {
    until is_orphan; do
        if next; then carry; else check; fi || return
    done
    fail "its s6-supervise has ended"
}

# notify: says that the hub has the service, and the first time also to READY_FD.
notify() {
    tell "subscribed"
    [ -n "${READY_FD-}" ] || return 0
    echo >&"$READY_FD" || exit 1
    exec {READY_FD}>&-
    READY_FD=
}

# The bridge subscribes, then looks, then carries.
subscribe
while true; do
    connect
    if begin && settle; then
        notify
        follow
    fi
    disconnect
    tell "the hub is gone"
done
