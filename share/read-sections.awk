# Reads the files that FOLDER has of routers, for the scripts that stand behind it. A file is named after its router. In it
# `== show WORDS` stands above what a command printed, and `section` is what it shows.

# Writes a line to standard error.
function tell(text) {
    print tool ": " text | "cat >&2"
    close("cat >&2")
}

# Ends with such a line.
function stop(text) {
    tell(text)
    stopped = 1
    exit 1
}

# Tells whether a daemon says that it cannot do what it was asked for.
function is_error() { return /^% |^syntax error|^No valid tables|^Access denied/ }

# The router that a file is named after.
function router_of(file) {
    sub(/.*\//, "", file)
    return file
}

BEGIN { for (i = 1; i < ARGC; i++) names[++routers] = router_of(ARGV[i]) }
FNR == 1 {
    router = router_of(FILENAME)
    section = ""
}
{ sub(/\r$/, "") }
/^== show / {
    section = $0
    sub(/^== show /, "", section)
    sub(/ \|.*/, "", section)
    if (section ~ /^route all export /) {
        exporter[router] = $NF
        section = "route all export"
    }
    shown[router, section] = $0
    part = ""
    next
}
