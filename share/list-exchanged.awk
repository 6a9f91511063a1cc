# Lists what links exchange, after join-links.awk and for draft-plan.awk, where FRR filters what it sends. `only` of a network
# has what the filters permit, and what their routers have learned there, which is what the others tell. Where a filter leaves
# open what it permits, `vague` says why.

# Tells whether a line of a list is about a prefix.
function covers(rule, prefix,    size) {
    if (exact[rule]) return target[rule] == prefix
    size = bits(target[rule])
    return bits(prefix) + 0 >= size + 0 && network(host(prefix) "/" size) == target[rule]
}

# Tells whether a list denies what its line n permits.
function is_denied(key, n,    i) {
    for (i = 1; i < n; i++) if (action[key, i] == "deny" && covers(key SUBSEP i, target[key, n])) return 1
    return 0
}

# Why the filter of an interface leaves open which prefixes it permits, if it does. FRR does not filter by a list without lines.
function doubt(router, name,    key, n) {
    key = router SUBSEP filter[router, name]
    if (filters[router, name] + filters[router, ""] > 1) return "is not the only filter there"
    if (!has_lines(router, "prefix")) return "is not in its file"
    if (!rules[key]) return "has no lines"
    for (n = 1; n <= rules[key]; n++) {
        if (action[key, n] != "permit") continue
        if (!exact[key, n]) return "permits more than it names"
        if (is_denied(key, n)) return "denies what it permits further on"
    }
    return ""
}

# Adds a prefix to the list of a link, once, and not its own.
function add_only(net, prefix) {
    if (prefix == net || (net, prefix) in exchanged) return
    exchanged[net, prefix] = 1
    only[net] = only[net] (only[net] == "" ? "" : ", ") "\"" prefix "\""
}

# Adds what the filter of a router permits.
function add_permitted(router, net,    key, n) {
    key = router SUBSEP filter[router, at[router, net]]
    for (n = 1; n <= rules[key]; n++) {
        if (action[key, n] != "permit") continue
        permitted[router, net, target[key, n]] = 1
        add_only(net, target[key, n])
    }
}

# Tells whether an address is on the link of a network, by the addresses that the router has there.
function is_there(router, net, address,    further, n, i) {
    if (network(address "/" bits(net)) == net) return 1
    n = split(also[router, at[router, net]], further, " ")
    for (i = 1; i <= n; i++) if (network(address "/" bits(further[i])) == network(further[i])) return 1
    return 0
}

# A prefix as a text that sorts by the address, and then by the length.
function rank(prefix,    part) {
    split(prefix, part, /[.\/]/)
    return sprintf("%03d.%03d.%03d.%03d/%02d", part[1], part[2], part[3], part[4], part[5])
}

# Puts what a router has learned over a link among `told`, by address. It shows no 16 of what its filter does not permit.
function add_learned(router, net,    name, n, i) {
    name = at[router, net]
    for (n = 1; n <= learns[router]; n++) {
        if (!is_there(router, net, teller[router, n])) continue
        for (i = ++tells; i > 1 && rank(told[i - 1]) > rank(learned[router, n]); i--) told[i] = told[i - 1]
        told[i] = learned[router, n]
        if (!((router, net, told[i]) in permitted) && manner[router, name] != "off") manner[router, name] = "simple"
    }
}

# Notes why the filter of a router leaves open what is exchanged, if it does.
function add_vague(router, net,    name, reason) {
    name = at[router, net]
    reason = doubt(router, name)
    if (reason == "") return
    reason = filter[router, name] " of " router " " reason
    if (net in vague) reason = vague[net] " and " reason
    vague[net] = reason
}

# Makes the list of a link on which routers filter.
function list_link(net,    r, n, i) {
    for (r = 1; r <= routers; r++)
        if ((names[r], net) in at && (names[r], at[names[r], net]) in filter) filterer[++n] = names[r]
    for (i = 1; i <= n; i++) add_vague(filterer[i], net)
    if (!n || net in vague) return
    only[net] = ""
    tells = 0
    for (i = 1; i <= n; i++) add_permitted(filterer[i], net)
    for (i = 1; i <= n; i++) add_learned(filterer[i], net)
    for (i = 1; i <= tells; i++) add_only(net, told[i])
}

END {
    if (stopped) exit 1
    for (l = 1; l <= links; l++) list_link(nets[l])
}
