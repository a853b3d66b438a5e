# Completions of ftrighub for bash. tests/install compares them with `--help`.

# Sets `place` to the number of words before the one to complete that are no options, and `socket` to the option for the socket. Of a
# wait, `all` or `any` doesn't count, and is `span`.
_ftrighub_before() {
    local at
    place=0 span="" socket=()
    for ((at = 2; at < COMP_CWORD; at++)); do
        case ${COMP_WORDS[1]}:$place$span:${COMP_WORDS[at]} in
        *:--socket) socket=(--socket "${COMP_WORDS[++at]}") ;;
        *:--for | *:--timeout | *:--pattern | *:--tell | *:--waiting | *:--total) at=$((at + 1)) ;;
        *:-*) ;;
        wait:0:all | wait:0:any) span=${COMP_WORDS[at]} ;;
        *) place=$((place + 1)) ;;
        esac
    done
}

# The names that the hub has. A hub that doesn't answer within a second has none.
_ftrighub_names() {
    local reply
    reply=$(timeout 1 "${COMP_WORDS[0]}" ask "${socket[@]}" names 0 2>/dev/null)
    case $reply in
    "names "*) printf '%s\n' "${reply#names }" ;;
    esac
}

# The words of requests, as the help of `script` has them, each with its fields in capitals.
_ftrighub_words() {
    "${COMP_WORDS[0]}" script --help 2>/dev/null | sed -n '/^A line that/q; s/^  \([a-z]*\) [A-Z].*/\1/p'
}

_ftrighub() {
    local word=${COMP_WORDS[COMP_CWORD]} command="" words="" place span socket
    ((COMP_CWORD == 1)) || command=${COMP_WORDS[1]}
    _ftrighub_before
    case $command:${COMP_WORDS[COMP_CWORD - 1]} in
    *:--socket | serve:--setup | serve:--look) command=FILES ;;
    serve:--sessions | serve:--ready-fd | serve:--idle | serve:--names-per-session | wait:--for | wait:--timeout | follow:--timeout | follow:--pattern | make:--waiting | make:--total) return 0 ;;
    serve:--mode | serve:--look-mode) command=MODE ;;
    hold:--tell) command=STATE ;;
    esac
    case $command:$place:$word in
    MODE:*) words="0600 0620 0622 0660 0666" ;;
    :*:-*) words="-h --help -V --version" ;;
    serve:*:-*) words="-h --help --forever --idle --look --look-mode --mode --names-per-session --ready-fd --sessions --setup" ;;
    call:*:-* | script:*:-*) words="-h --help" ;;
    ask:0:-*) words="-h --help --socket" ;;
    wait:*:-*) words="-h --help --socket --timeout --now -q --quiet" ;;
    make:*:-*) words="-h --help --socket --plain --no-readiness --waiting --total --hold" ;;
    tell:*:-*) words="-h --help --socket" ;;
    status:*:-*) words="-h --help --socket --json" ;;
    hold:*:-*) words="-h --help --socket --tell" ;;
    follow:*:-*) words="-h --help --socket --pattern --plain --json --once --timeout --retry" ;;
    :* | help:*) words="make tell wait status follow hold ask serve call script help" ;;
    wait:0:*)
        words="up ready down finished restarted restarted-ready"
        [ -n "$span" ] || words="all any $words"
        ;;
    tell:1:* | STATE:*) words="off down up ready failed" ;;
    hold:1:*) words="off down failed" ;;
    ask:0:*) words=$(_ftrighub_words) ;;
    ask:* | make:* | tell:* | hold:* | wait:* | status:* | follow:*) words=$(_ftrighub_names) ;;
    FILES:* | serve:* | call:*)
        compopt -o filenames 2>/dev/null
        mapfile -t COMPREPLY < <(compgen -f -- "$word")
        return 0
        ;;
    esac
    mapfile -t COMPREPLY < <(compgen -W "$words" -- "$word")
}

complete -F _ftrighub ftrighub
