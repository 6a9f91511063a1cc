# Completes the words of ripaudit in fish.

# Whether the word at the cursor is the one that is asked for, options and the seconds of a window not counted: 1 for the command,
# 2 for what follows it.
function __ripaudit_word
    set -l words (commandline -opc)
    set -l window (contains -i -- --window $words)
    and set -e words[(math $window + 1)]
    test (count (string match -v -- '-*' $words)) = $argv[1]
end

function __ripaudit_commands
    printf '%s\t%s\n' \
        audit 'tell whether routes are right, those that a log shows or those that routers have' \
        explain 'tell the verdict of audit, and what it comes from' \
        heard "tell who is in a log, and all that is refused, a stranger's or bad" \
        routes 'print the routes that a log shows' \
        table 'print what each interface of a plan shows in a log' \
        expect 'print the right routes of a plan' \
        whatif 'tell what each failure of a link or a router would cost' \
        plan 'print the parts of a plan' \
        watch 'tell the verdict of audit in each second of a log with times in which it changed' \
        log 'make a log of the RIP datagrams in capture files' \
        decode 'print one datagram' \
        help 'print the commands, or the words of one'
end

complete -c ripaudit -f
complete -c ripaudit -l help -d 'print the words that are taken'
complete -c ripaudit -n '__ripaudit_word 1' -l version -d 'print the version'
complete -c ripaudit -n '__ripaudit_word 1' -a '(__ripaudit_commands)'
complete -c ripaudit -n '__ripaudit_word 2; and __fish_seen_subcommand_from help' -a '(__ripaudit_commands)'
complete -c ripaudit -n '__fish_seen_subcommand_from audit explain' -l all -d 'tell of each place, not only of the first'
complete -c ripaudit -n '__fish_seen_subcommand_from audit explain' -l routes -d 'judge the routes that routers have, not those of a log'
complete -c ripaudit -n '__fish_seen_subcommand_from routes table' -l anyway -d "leave out what is refused, a stranger's or bad, and go on"
complete -c ripaudit -n '__fish_seen_subcommand_from log' -l without-authentication -d 'print datagrams as they would be without their authentication'
complete -c ripaudit -n '__fish_seen_subcommand_from log' -l times -d 'begin each line of a packet with its time'
complete -c ripaudit -n '__fish_seen_subcommand_from watch' -l window -x -d 'for how many seconds what an interface says is shown'
complete -c ripaudit -n '__fish_seen_subcommand_from watch' -l until-settled -d 'end at the first settled second'
complete -c ripaudit -n '__fish_seen_subcommand_from whatif' -l all -d 'name each router and prefix that is lost, and each prefix that is gone'
complete -c ripaudit -n '__ripaudit_word 2; and __fish_seen_subcommand_from audit explain heard routes table expect whatif plan watch' \
    -k -a '(__fish_complete_suffix .toml)'
complete -c ripaudit -n '__ripaudit_word 3; and __fish_seen_subcommand_from audit explain heard routes table watch' -F
complete -c ripaudit -n 'not __ripaudit_word 1; and __fish_seen_subcommand_from log' -F
