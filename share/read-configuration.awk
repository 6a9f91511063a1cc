# Reads the configurations of routers of FRR and BIRD, after read-routers.awk and for draft-plan.awk: what interfaces cost,
# the metrics of what is redistributed and the distances of statics, the `manner` of an interface, the `filter` on what FRR sends
# over it, and what no key of a plan says of it (`unsaid`). The manner is what a router shows on the link over which it has a
# route: nothing (`simple`), 16 (`poison`), or the metric (`off`).

# Notes what no key says of an interface, or of a router, where the name is "".
function add_unsaid(name, text) {
    if ((router, name) in unsaid) text = unsaid[router, name] "; " text
    unsaid[router, name] = text
}

# A line below an interface of FRR. A key chain or a password does nothing without a mode.
function read_interface(name) {
    if (/^ ip rip split-horizon poisoned-reverse/) manner[router, name] = "poison"
    if (/^ no ip rip split-horizon/) manner[router, name] = "off"
    if (/^ ip rip authentication mode /) add_unsaid(name, "that it authenticates, by " $5)
}

# Notes an outgoing filter of an interface by its list, as `prefix-list DEFAULT`, or one that holds at all, where the name is "".
function add_filter(name, text) {
    filters[router, name]++
    if (name == "") add_unsaid("", "that it filters what it sends, by distribute-list " substr(text, index(text, " ") + 1))
    else filter[router, name] = text
}

# A line below `router rip` of FRR. A distribute-list or an offset-list without an interface holds at all.
function read_rip(    letter, way) {
    if ($1 == "offset-list" && $3 == "in") {
        cost[router, $5] = $4
        list[router, $5] = $2
    }
    if ($1 == "offset-list" && $3 == "out") add_unsaid($5, "that it adds to what it sends, by offset-list " $2)
    way = $2 == "prefix" ? 4 : 3
    if ($1 == "distribute-list" && $way == "out")
        add_filter($(way + 1), (way == 4 ? "prefix-list " : "access-list ") $(way - 1))
    if ($1 == "route-map" && $3 == "out") {
        filters[router, $4]++
        add_unsaid($4, "that it changes what it sends, by route-map " $2)
    }
    if ($1 == "allow-ecmp") add_unsaid("", "that it goes several equal ways at once, by allow-ecmp")
    if ($1 != "redistribute") return
    letter = toupper(substr($2, 1, 1))
    if ($3 == "metric") given[router, letter] = $4
    if (/ route-map /) mapped[router, letter] = 1
}

# A static route of FRR. Of those to one prefix the least distance counts.
function read_static(    far, i) {
    far = 1
    for (i = 5; i <= NF; i++)
        if ($i ~ /^[0-9]+$/ && $(i - 1) !~ /^(tag|table|label|color)$/) far = $i + 0
    if (!((router, $3) in distance) || far < distance[router, $3]) distance[router, $3] = far
}

# A line of a list of FRR, as `access-list FEW seq 5 permit 10.8.0.0/16 exact-match`: what it does with a prefix, and whether
# with that alone (`exact`). Of an access-list without the last word, or a prefix-list with le or ge, it is with others too.
function read_list(    first, verb, key) {
    first = $1 == "ip" ? 2 : 1
    verb = first + ($(first + 2) == "seq" ? 4 : 2)
    if ($verb != "permit" && $verb != "deny") return
    key = router SUBSEP $first " " $(first + 1)
    rules[key]++
    key = key SUBSEP rules[key]
    action[key] = $verb
    target[key] = "0.0.0.0/0"
    if ($(verb + 1) !~ /^[0-9.]+\/[0-9]+$/) return
    target[key] = network($(verb + 1))
    exact[key] = first == 2 ? NF == verb + 1 : $(verb + 2) == "exact-match"
}

# A file of an earlier --help has lines of `router rip` alone, without that line.
section == "running-config" && /^[^ ]/ { part = $1 " " $2 }
section == "running-config" && part ~ /^interface / { read_interface(substr(part, 11)) }
section == "running-config" && (part == "" || part == "router rip") { read_rip() }
section == "running-config" && /^ip route / { read_static() }
section == "running-config" && /^(access-list|ip prefix-list) / { read_list() }

# Begins what BIRD's configuration says of a list of interfaces. An interface belongs to the first list of its protocol that
# has it.
function add_clause() {
    clauses[router, owner]++
    clause = router SUBSEP owner SUBSEP clauses[router, owner]
    listed[clause] = statement
    manner[clause] = "poison"
}

# A statement that holds for such a list.
function read_option(    word) {
    split(statement, word, " ")
    if (statement ~ /^poison reverse (no|off|0) / && manner[clause] == "poison") manner[clause] = "simple"
    if (statement ~ /^split horizon (no|off|0) /) manner[clause] = "off"
    if (word[1] == "authentication" && word[2] != "none") secret[clause] = word[2]
}

# Opens a brace of BIRD's configuration. The protocols of RIP without a name are rip1, rip2 and so on.
function open_brace(    word) {
    opened[++depth] = statement
    split(statement, word, " ")
    if (depth == 1 && statement ~ /^protocol rip /) owner = word[3] == "" ? "rip" (++unnamed) : word[3]
    if (depth == 2 && opened[1] ~ /^protocol rip / && word[1] == "interface") add_clause()
}

# Ends a statement of BIRD's configuration.
function end_statement() {
    if (opened[1] !~ /^protocol rip /) return
    if (depth == 1 && statement ~ /^interface /) add_clause()
    if (depth == 2 && opened[2] ~ /^interface /) read_option()
}

# Takes a word of BIRD's configuration, or a sign.
function take(word) {
    if (word == "{") open_brace()
    else if (word == "}") opened[depth--] = ""
    else if (word == ";") end_statement()
    else {
        statement = statement word " "
        return
    }
    statement = ""
}

# Takes the words of a line of BIRD's configuration, without comments.
function read_line(line,    word, end) {
    while (1) {
        if (comment) {
            end = index(line, "*/")
            if (!end) return
            line = substr(line, end + 2)
            comment = 0
        }
        sub(/^[ \t]+/, "", line)
        if (!match(line, /^("[^"]*"|[{};]|[^ \t"{};]+)/) || line ~ /^#/) return
        word = substr(line, 1, RLENGTH)
        comment = word ~ /^\/\*/
        line = substr(line, comment ? 3 : RLENGTH + 1)
        if (!comment) take(word)
    }
}

section == "configuration" { read_line($0) }

# Tells whether a list of interfaces, such as `interface -"eth0" , "eth*"`, has one.
function has(text, name,    item, part, n, i) {
    n = split(text, item, ",")
    for (i = 1; i <= n; i++) {
        split(item[i], part, "\"")
        gsub(/[.]/, "[.]", part[2])
        gsub(/[*]/, ".*", part[2])
        gsub(/[?]/, ".", part[2])
        if (name ~ "^" part[2] "$") return part[1] !~ /-/
    }
    return 0
}

# Looks an interface of BIRD up in the lists of its protocol.
function find_clause(name,    clause, n) {
    for (n = 1; n <= clauses[router, exporter[router]]; n++) {
        clause = router SUBSEP exporter[router] SUBSEP n
        if (!has(listed[clause], name)) continue
        manner[router, name] = manner[clause]
        if (clause in secret) add_unsaid(name, "that it authenticates, by " secret[clause])
        return
    }
}

# Tells whether the file of a router has the lines of FRR's configuration with a word: those that were asked for, or all.
function has_lines(router, word,    title) {
    if (!((router, "running-config") in shown)) return 0
    title = shown[router, "running-config"]
    return index(title, word) || title !~ / include /
}

END {
    if (stopped) exit 1
    for (r = 1; r <= routers; r++) {
        router = names[r]
        for (i = 1; i <= count[router]; i++) {
            name = on[router, i]
            if ((router, "configuration") in shown) find_clause(name)
            if (has_lines(router, "split-horizon") && !((router, name) in manner)) manner[router, name] = "simple"
            if ((router, name) in manner && manner[router, name] == "off") add_unsaid(name, "that split horizon is off")
        }
    }
}
