# Prints the routes that routers of FRR and BIRD have, after read-sections.awk, as `ripaudit audit --routes` reads them. A route is
# noted by its number `n`: where it stands (`source`), its prefix, its metric if one is told, and whether the router learned it.

# Notes a route.
function add(text, cost, is_learned) {
    n = ++count[router]
    source[router, n] = section
    prefix[router, n] = text
    metric[router, n] = cost
    learned[router, n] = is_learned
    read_from[router, section]++
}

# Notes a next hop of the route that was noted last.
function add_hop(text) { hops[router, n] = hops[router, n] " " text }

# FRR has a line for each way. Of what is redistributed it says metric 1, whatever it announces.
section == "ip rip" && $2 ~ /^[0-9.]+\/[0-9]+$/ {
    sub(/V6 Address Hidden/, "hidden")
    add($2, $5 == "self" && $4 < 16 ? "" : $4, $5 != "self")
    add_hop($3)
}

# BIRD has next hops and the metric on lines of their own. The best route of a prefix has a star, or a mark of exclamation where the
# kernel has not taken it; what follows is the protocol's.
section == "rip interfaces" && /^[^ ]+:$/ { speaks[router, "[" substr($1, 1, length($1) - 1)] = 1 }
section ~ /^route all/ && /^[^\t]/ { n = 0 }
section ~ /^route all/ && /^[0-9.]+\/[0-9]+ .*\] [*!]( |$)/ {
    add($1, "", section == "route all" ? (router, $3) in speaks : $3 == "[" exporter[router])
    if (learned[router, n] && $2 != "unicast") metric[router, n] = 16
}
section ~ /^route all/ && n && $1 == "via" { add_hop($2) }
section ~ /^route all/ && n && $1 == "RIP.metric:" && metric[router, n] == "" { metric[router, n] = $2 }

# Why a daemon shows no routes.
is_error() && (section == "ip rip" || section ~ /^route all/) { said[router] = ": " $0 }

# Tells whether the other of BIRD's two lists counts, where both were read: `show route all` has all that the router learned, and
# `show route all export` what it announces of its own.
function is_elsewhere(router, n) {
    if (!(read_from[router, "route all"] && read_from[router, "route all export"])) return 0
    return source[router, n] == (learned[router, n] ? "route all export" : "route all")
}

# Prints the lines of a route.
function print_route(router, n,    front, hop, ways, i) {
    front = router " " prefix[router, n] (metric[router, n] == "" ? "" : " " metric[router, n])
    if (metric[router, n] == 16) print front " unreachable"
    else if (!learned[router, n]) print front " here"
    else {
        ways = split(hops[router, n], hop, " ")
        for (i = 1; i <= ways; i++) print front " via " hop[i]
    }
}

# What is missing of a router: no route could be read, or a list of them was asked for and could not.
function lack(router) {
    if (!count[router]) return "no route could be read" said[router]
    if (said[router] != "" || (router, "route all") in shown && !read_from[router, "route all"])
        return "not all routes could be read" said[router]
    return ""
}

END {
    for (r = 1; r <= routers; r++) {
        router = names[r]
        for (n = 1; n <= count[router]; n++) if (!is_elsewhere(router, n)) print_route(router, n)
        if (lack(router) == "") continue
        print "# " router ": " lack(router)
        tell(router ": " lack(router))
        lacking = 1
    }
    exit lacking
}
