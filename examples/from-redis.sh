#!/bin/bash
# Publishes the entries of a stream of Redis at a fifodir, each once and in order. The letters are the values of the entries'
# first fields. The script makes the fifodir NAME, and has to be its only publisher: the number of its events says how much of the
# stream was published. So the script goes on where it was, whichever side was killed. A new hub gets the stream from its first
# entry on, so no entry may be removed.
#
# A value that isn't one or more letters, bytes from 0x21 to 0x7E, is refused: a line says the entry's ID, and nothing of it is
# published.
#
#     examples/from-redis.sh SOCKET NAME STREAM [WORD ..]     WORDs are for redis-cli, such as -s /run/redis.sock
[ $# -ge 3 ] || { echo "usage: from-redis.sh SOCKET NAME STREAM [WORD ..]" >&2; exit 2; }
LC_ALL=C
ftrighub=${FTRIGHUB:-ftrighub}
socket=$1 name=$2 stream=$3 words=("${@:4}")
[[ $name =~ ^[A-Za-z0-9_.-]{1,32}$ ]] || { printf 'from-redis: %q is no name of a fifodir\n' "$name" >&2; exit 2; }
command -v "$ftrighub" >/dev/null || { echo "from-redis: can't run $ftrighub; FTRIGHUB may name the program" >&2; exit 1; }
declare -A told=() # the IDs of entries that were refused
trap '' PIPE

# The last of the next entries behind ARGV[1], the IDs of those that are refused, each after a comma, and the letters of the others.
# A refused entry counts as none, so the number of events says the same of the stream whenever the script is started.
more='local id, refused, letters = ARGV[1], "", ""
for _, entry in ipairs(redis.call("XRANGE", KEYS[1], "(" .. id, "+", "COUNT", 256)) do
    local value = entry[2][2]
    id = entry[1]
    if value == "" or string.find(value, "[^!-~]") then
        refused = refused .. "," .. id
    else
        letters = letters .. value
    end
end
return id .. " " .. refused .. " " .. letters'

fail() {
    printf 'from-redis: %s: %s\n' "$name" "$1" >&2
    exit 1
}

ask() { # LINE: sends a request, and leaves the reply in $reply. It fails if the session has ended.
    { echo "$1" >&"$lines"; } 2>/dev/null && IFS= read -r reply <&"$replies"
}

publish() { # LETTERS: publishes them at $number, in pieces. It fails if the session has ended.
    local rest=$1
    while [ -n "$rest" ]; do
        ask "pub $name ${rest:0:256}" || return
        case $reply in
        "ok $number") number=$((number + (${#rest} < 256 ? ${#rest} : 256))) rest=${rest:256} ;;
        'no full') sleep 0.01 ;;
        *) fail "pub at $number: $reply" ;;
        esac
    done
}

refuse() { # IDS: says which entries are refused, each once.
    local id
    for id in ${1//,/ }; do
        [ -n "${told[$id]-}" ] || printf 'from-redis: %s: entry %s of %q is refused: its value has a byte that is no letter, or none\n' \
            "$name" "$id" "$stream" >&2
        told[$id]=yes
    done
}

carry() { # goes over the letters that the fifodir has, and publishes the rest. It fails if the session has ended.
    local last=0-0 page letters place=0
    ask "dir $name 4096 1000000000000" || return
    [[ $reply == ok || $reply == 'no exists' ]] || fail "dir: $reply"
    ask "status $name" || return
    [[ $reply =~ ^ok\ ([0-9]+)\  ]] || fail "status: $reply"
    number=${BASH_REMATCH[1]}
    while true; do
        page=$(redis-cli "${words[@]}" --raw EVAL "$more" 1 "$stream" "$last" 2>/dev/null)
        # What isn't of this form was never made by the lines above, and nothing of it becomes a request.
        if [[ $page =~ ^([0-9]+-[0-9]+)\ ([0-9,-]*)\ ([!-~]*)$ && ${BASH_REMATCH[1]} != "$last" ]]; then
            last=${BASH_REMATCH[1]} letters=${BASH_REMATCH[3]}
            refuse "${BASH_REMATCH[2]}"
            publish "${letters:number > place ? number - place : 0}" || return
            place=$((place + ${#letters}))
        else
            sleep 0.1 && ask "status $name" || return
        fi
    done
}

while true; do
    coproc SESSION { exec "$ftrighub" call "$socket" 2>/dev/null; }
    lines=${SESSION[1]-} replies=${SESSION[0]-} # neither, if it has ended
    sleep 0.5 # until the line of an earlier session is carried out, if that was killed
    carry
    [ -z "$lines" ] || exec {lines}>&-
    [ -z "$replies" ] || exec {replies}<&-
    wait
done
