# What the test scripts share: the program, a scratch folder, and how a run is judged. A script first passes its own words to `begin`,
# and ends with `end`, which prints `N passed, M failed`. A script that tried nothing fails.

begin() {
    here=$(cd "$(dirname "$0")" && until [ -e crates.txt ] || [ "$PWD" = / ]; do cd ..; done && pwd)
    program=${1:-crates/ripaudit/out/ripaudit}
    case $program in
    /*) ;;
    *) program=$here/$program ;;
    esac
    scratch=$(mktemp -d) || exit 1
    trap 'rm -rf "$scratch"' EXIT
    out=$scratch/out
    err=$scratch/err
    passed=0
    failed=0
}

end() {
    echo "$passed passed, $failed failed"
    [ "$failed" = 0 ] && [ "$passed" != 0 ]
}

pass() {
    passed=$((passed + 1))
}

fail() {
    failed=$((failed + 1))
    echo "$1"
}

# run WORD ..: runs the program; its output goes to $out and $err.
run() {
    "$program" "$@" > "$out" 2> "$err" < /dev/null
    status=$?
}

# expect NAME STATUS STDOUT STDERR: judges the last run. STDOUT and STDERR are a text, or `*` for any text, or `+` for any but the empty
# one.
expect() {
    matches "$3" "$out" && matches "$4" "$err" && [ "$status" = "$2" ] && { pass; return; }
    fail "$1: status $status, stdout $(head -c 200 "$out"), stderr $(head -c 200 "$err")"
}

matches() {
    case $1 in
    '*') true ;;
    '+') [ -s "$2" ] ;;
    '') [ ! -s "$2" ] ;;
    *) [ "$(cat "$2")" = "$1" ] ;;
    esac
}
