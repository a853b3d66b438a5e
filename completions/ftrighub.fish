# Completions of ftrighub for fish. tests/install compares them with `--help`.

# The names that the hub has. A hub that doesn't answer within a second has none.
function __ftrighub_names
    set -l words (commandline -opc)
    set -l socket
    if set -l at (contains -i -- --socket $words)
        set socket --socket $words[(math $at + 1)]
    end
    timeout 1 ftrighub ask $socket names 0 2>/dev/null | string match -r '^names .*' | string split ' ' | string match -v names
end

# The words behind the command that are no options and no values of options. Of a wait, `all` or `any` doesn't count.
function __ftrighub_before
    set -l words (commandline -opc)
    set -l command $words[2]
    set words $words[3..]
    set -l before
    while set -q words[1]
        switch $words[1]
            case --socket --for --timeout --pattern --tell --waiting --total --sessions --ready-fd --idle --setup --mode --look --look-mode --names-per-session
                set words $words[2..]
            case '-*'
            case '*'
                if not test "$command:$before" = wait:; or not contains -- $words[1] all any
                    set -a before $words[1]
                end
        end
        set words $words[2..]
    end
    string join \n -- $before
end

# Whether the command is one of these, and so many words are behind it.
function __ftrighub_at
    set -l words (commandline -opc)
    contains -- "$words[2]" $argv[2..]; and test (count (__ftrighub_before)) -eq $argv[1]
end

# Whether the command is one of these, and at least so many words are behind it.
function __ftrighub_behind
    set -l words (commandline -opc)
    contains -- "$words[2]" $argv[2..]; and test (count (__ftrighub_before)) -ge $argv[1]
end

# The words of requests, as the help of `script` has them, each with its fields in capitals.
function __ftrighub_words
    ftrighub script --help 2>/dev/null | sed -n '/^A line that/q; s/^  \([a-z]*\) [A-Z].*/\1/p'
end

complete -c ftrighub -f
complete -c ftrighub -n __fish_use_subcommand -a make -d 'Make services, or check those that are there'
complete -c ftrighub -n __fish_use_subcommand -a tell -d 'Say whether a service is off, down, up, ready or failed'
complete -c ftrighub -n __fish_use_subcommand -a wait -d "Wait until services reach a state, and report those that don't"
complete -c ftrighub -n __fish_use_subcommand -a status -d 'Show the state of services'
complete -c ftrighub -n __fish_use_subcommand -a follow -d 'Print events as they arrive'
complete -c ftrighub -n __fish_use_subcommand -a hold -d 'Say where a service is, and what it is once this command has ended'
complete -c ftrighub -n __fish_use_subcommand -a ask -d 'Send one request to a hub, and write its reply'
complete -c ftrighub -n __fish_use_subcommand -a serve -d 'Run a hub at a Unix socket'
complete -c ftrighub -n __fish_use_subcommand -a call -d 'Send the request lines of standard input to a hub'
complete -c ftrighub -n __fish_use_subcommand -a script -d 'Answer the request lines of standard input on standard output'
complete -c ftrighub -n __fish_use_subcommand -a help -d 'Print this message or the help of the given subcommand(s)'
complete -c ftrighub -n __fish_use_subcommand -s V -l version -d 'Print version'
complete -c ftrighub -n 'not __fish_seen_subcommand_from help' -s h -l help -d 'Print help'
complete -c ftrighub -n '__fish_seen_subcommand_from serve' -l sessions -x -d 'How many connections, from 1 to 64'
complete -c ftrighub -n '__fish_seen_subcommand_from serve' -l forever -d 'Run until stopped; N is then 1 to 1024, else 64'
complete -c ftrighub -n '__fish_seen_subcommand_from serve' -l ready-fd -x -d 'With --forever: write a newline to D when ready'
complete -c ftrighub -n '__fish_seen_subcommand_from serve' -l idle -x -d 'With --forever: end sessions idle for SECONDS'
complete -c ftrighub -n '__fish_seen_subcommand_from serve' -l setup -r -F -d 'With --forever: carry out the lines of FILE first'
complete -c ftrighub -n '__fish_seen_subcommand_from serve' -l mode -x -a '0600 0620 0622 0660 0666' -d 'With --forever: mode of the socket file'
complete -c ftrighub -n '__fish_seen_subcommand_from serve' -l look -r -F -d 'With --forever: a second socket, only to look'
complete -c ftrighub -n '__fish_seen_subcommand_from serve' -l look-mode -x -a '0600 0620 0622 0660 0666' -d "With --look: mode of that socket's file"
complete -c ftrighub -n '__fish_seen_subcommand_from serve' -l names-per-session -x -d 'With --forever: fifodirs that a session may make'
complete -c ftrighub -n '__fish_seen_subcommand_from ask make tell hold wait status follow' -l socket -r -F -d 'Socket of the hub (or else FTRIGHUB_SOCKET has it)'
complete -c ftrighub -n '__fish_seen_subcommand_from wait' -l timeout -x -d 'Time limit, such as 500ms, 0.5s, 90 (seconds), 2m or 1h'
complete -c ftrighub -n '__fish_seen_subcommand_from wait' -l now -d "Don't wait for the hub, or for names to be made"
complete -c ftrighub -n '__fish_seen_subcommand_from wait' -s q -l quiet -d 'Write nothing but errors'
complete -c ftrighub -n '__ftrighub_at 0 wait' -a 'up ready down finished restarted restarted-ready'
complete -c ftrighub -n '__ftrighub_at 0 wait; and not __fish_seen_subcommand_from all any' -a 'all any'
complete -c ftrighub -n '__fish_seen_subcommand_from make' -l plain -d 'Make plain fifodirs, which take any letters'
complete -c ftrighub -n '__fish_seen_subcommand_from make' -l no-readiness -d "The services don't report that they are ready"
complete -c ftrighub -n '__fish_seen_subcommand_from make' -l waiting -x -d 'How many events may be pending, 1 to 4096'
complete -c ftrighub -n '__fish_seen_subcommand_from make' -l total -x -d 'How many in all, from 1 to 10^12'
complete -c ftrighub -n '__fish_seen_subcommand_from make' -l hold -d 'Refuse what has no room, and evict no subscriber'
complete -c ftrighub -n '__ftrighub_at 1 tell' -a 'off down up ready failed'
complete -c ftrighub -n '__fish_seen_subcommand_from hold' -l tell -x -a 'off down up ready failed' -d 'Where it is now, to be told at the beginning'
complete -c ftrighub -n '__ftrighub_at 1 hold' -a 'off down failed'
complete -c ftrighub -n '__ftrighub_at 0 ask' -a '(__ftrighub_words)'
complete -c ftrighub -n '__ftrighub_at 0 tell hold; or __ftrighub_behind 0 make status follow; or __ftrighub_behind 1 wait ask' -a '(__ftrighub_names)'
complete -c ftrighub -n '__fish_seen_subcommand_from status' -l json -d 'Write an object of JSON on a line for each fifodir'
complete -c ftrighub -n '__fish_seen_subcommand_from follow' -l pattern -x -d 'Write the hits of this pattern, and not each letter'
complete -c ftrighub -n '__fish_seen_subcommand_from follow' -l plain -d 'Write the letters alone'
complete -c ftrighub -n '__fish_seen_subcommand_from follow' -l json -d 'Write an object of JSON for each letter or hit'
complete -c ftrighub -n '__fish_seen_subcommand_from follow' -l once -d 'End with the first letter, or the first hit'
complete -c ftrighub -n '__fish_seen_subcommand_from follow' -l timeout -x -d 'Time limit, such as 500ms, 0.5s, 90 (seconds), 2m or 1h'
complete -c ftrighub -n '__fish_seen_subcommand_from follow' -l retry -d 'If the hub ends, wait for the next one, and go on'
complete -c ftrighub -n '__fish_seen_subcommand_from serve call; and not __fish_seen_subcommand_from help' -F
complete -c ftrighub -n '__fish_seen_subcommand_from help' -a 'make tell wait status follow hold ask serve call script help'
