#!/bin/bash
# Copies the letters of a fifodir into a stream of Redis, each once and in order: event N of NAME becomes the entry 1-N of the
# stream ftrighub:NAME, with the field `letter`. What is added again after a crash is there already, and adds nothing.
#
#     examples/to-redis.sh SOCKET NAME [WORD ..]       WORDs are for redis-cli, such as -s /run/redis.sock
#
# It takes one of the hub's sessions, and ends with status 1 if that ends; its subscription is then gone. If two of them run at
# the same time, either may be killed and started again without a loss. See ftrighub-machines(7).
[ $# -ge 2 ] || { echo "usage: to-redis.sh SOCKET NAME [WORD ..]" >&2; exit 2; }
LC_ALL=C
ftrighub=${FTRIGHUB:-ftrighub}
socket=$1 name=$2 words=("${@:3}")
[[ $name =~ ^[A-Za-z0-9_.-]{1,32}$ ]] || { printf 'to-redis: %q is no name of a fifodir\n' "$name" >&2; exit 2; }
command -v "$ftrighub" >/dev/null || { echo "to-redis: can't run $ftrighub; FTRIGHUB may name the program" >&2; exit 1; }
trap '' PIPE

# Adds the letters from number ARGV[1] on that the stream doesn't have yet, and returns the number that it needs next.
add='local last, from, letters = redis.call("XREVRANGE", KEYS[1], "+", "-", "COUNT", 1)[1], tonumber(ARGV[1]), ARGV[2]
local next = last and tonumber(string.match(last[1], "%-(%d+)$")) + 1 or from
for at = next, next < from and -1 or from + #letters - 1 do
    redis.call("XADD", KEYS[1], "1-" .. at, "letter", string.sub(letters, at - from + 1, at - from + 1))
    next = at + 1
end
return next'

fail() {
    echo "to-redis: $name: $1" >&2; exit 1
}

ask() { # LINE: sends a request, and leaves the reply in $reply.
    { echo "$1" >&"$lines"; } 2>/dev/null && IFS= read -r reply <&"$replies" || fail "the hub is gone"
}

put() { # LETTERS: adds them from $number on, as soon as Redis answers. Another to-redis.sh may have to add letters before them.
    local tries=0
    while true; do
        next=$(redis-cli "${words[@]}" --raw EVAL "$add" 1 "ftrighub:$name" "$number" "$1" 2>/dev/null)
        if [[ $next =~ ^[0-9]+$ ]]; then
            [ "$next" -lt "$number" ] || return 0
            [ $((tries += 1)) -lt 100 ] || fail "events $next to $((number - 1)) are missing in the stream"
        fi
        sleep 0.1
    done
}

coproc SESSION { exec "$ftrighub" call "$socket" 2>/dev/null; }
lines=${SESSION[1]-} replies=${SESSION[0]-} before='' after=-
until [ "$before" = "$after" ]; do # until nothing comes between: then it is known where the subscription begins
    [ -z "$before" ] || ask "cancel $id"
    ask "status $name" && before=$reply && ask "sub $name" && id=${reply#ok }
    [[ $reply == ok\ * ]] || fail "sub: $reply"
    ask "status $name" && after=$reply
done
[[ $after =~ ^ok\ ([0-9]+)\  ]] || fail "status: $after"
number=${BASH_REMATCH[1]}
put ""
ask "status $name"
[[ $reply =~ ^ok\ ([0-9]+)\  ]] || fail "status: $reply"
total=${BASH_REMATCH[1]}
[ "$next" -le "$total" ] || fail "the stream has $next events and the fifodir $total, so it is that of an earlier hub"
echo "to-redis: $name: subscribed at $number" >&2
while ask "await $id 1000" && ask "take $id 256" && [ "$reply" != end ]; do
    [ "$reply" != none ] || continue
    [[ $reply == got\ * ]] || fail "take: $reply"
    put "${reply#got }" && number=$((number + ${#reply} - 4))
done
