# Completes the words of ripaudit in bash.

_ripaudit() {
    local current=${COMP_WORDS[COMP_CWORD]} command='' given=0 before='' word
    COMPREPLY=()
    for word in "${COMP_WORDS[@]:1:COMP_CWORD-1}"; do
        if [[ $word == = ]]; then # Bash breaks words at =.
            continue
        elif [[ $before == --window ]]; then
            before=''
            continue
        fi
        before=$word
        if [[ $word == -* ]]; then
            continue
        elif [[ $command ]]; then
            given=$((given + 1))
        else
            command=$word
        fi
    done
    if [[ $before == --window ]]; then
        return
    fi
    case $command:$given:$current in
    :0:-*) _ripaudit_words --help --version ;;
    audit:*:-* | explain:*:-*) _ripaudit_words --all --routes --help ;;
    whatif:*:-*) _ripaudit_words --all --help ;;
    routes:*:-* | table:*:-*) _ripaudit_words --anyway --help ;;
    watch:*:-*) _ripaudit_words --window --until-settled --help ;;
    log:*:-*) _ripaudit_words --without-authentication --times --help ;;
    *:-*) _ripaudit_words --help ;;
    :0:* | help:0:*) _ripaudit_words audit explain heard routes table expect whatif plan watch log decode help ;;
    audit:0:* | explain:0:* | heard:0:* | routes:0:* | table:0:* | expect:0:* | whatif:0:* | plan:0:* | watch:0:*) _ripaudit_files '*.toml' ;;
    log:*) _ripaudit_captures ;;
    audit:1:* | explain:1:* | heard:1:* | routes:1:* | table:1:* | watch:1:*) _ripaudit_files '*' ;;
    esac
}

_ripaudit_words() {
    mapfile -t COMPREPLY < <(compgen -W "$*" -- "$current")
}

# The files that a pattern takes, and folders; or all, where it takes none.
_ripaudit_files() {
    compopt -o filenames 2> /dev/null
    mapfile -t COMPREPLY < <(compgen -f -X "!$1" -- "$current")
    if [[ ${#COMPREPLY[@]} = 0 ]]; then
        mapfile -t COMPREPLY < <(compgen -f -- "$current")
    elif [[ $1 != '*' ]]; then
        mapfile -t -O "${#COMPREPLY[@]}" COMPREPLY < <(compgen -d -X "$1" -- "$current")
    fi
}

# A capture, or what follows LINK= or LINK@WHICH=. Bash breaks words at = and @.
_ripaudit_captures() {
    current=${current#*=}
    _ripaudit_files '*'
}

complete -F _ripaudit ripaudit
