# Prints the plan of what the scripts before it have noted. A comment says what is guessed in a line, and what a router does
# there that no key of a plan says.

# Adds to what is guessed in the line that is being made.
function guess(text) { guessed = guessed (guessed == "" ? "   # guessed: " : "; ") text }

# Prints a line, with what is guessed in it and what no key says of the interface, or of the router, where the name is "".
function print_line(text, router, name) {
    if ((router, name) in unsaid) guessed = guessed "   # no key says: " unsaid[router, name]
    print text guessed
    guessed = ""
}

# Prints the line of an item of a list, of an interface where there is a name.
function item(text, router, name) { print_line("    { " text " },", router, name) }

# A link, with the list of what it exchanges, where filters tell that, or with why they do not.
function link_item(net,    text) {
    text = "name = \"" label[net] "\", prefixes = [\"" net "\"]"
    if (net in only) text = text ", only = [" only[net] "]"
    if (net in vague) guess("that all is exchanged, since " vague[net])
    if (members[net] == 1) guess("that " last[net] " alone speaks here")
    item(text)
}

# Tells whether an interface shows nothing on the link over which the router has a route.
function is_simple(router, name) { return (router, name) in manner && manner[router, name] == "simple" }

# An interface: its cost is that of BIRD, or of an offset-list of FRR. Both show the link's network at 1, whatever the cost.
function interface_item(router, net,    name, text, key, further, n, i) {
    name = at[router, net]
    text = "link = \"" label[net] "\", address = \"" host(address[router, name]) "\""
    key = (router, name) in cost ? name : ""
    if (cost[router, key] > 1) text = text ", cost = " cost[router, key] ", direct = 1"
    if ((router, key) in list) guess("the cost, from offset-list " list[router, key])
    if ((router, "ip rip") in shown && !((router, "running-config") in shown)) guess("the cost")
    if (!((router, name) in manner)) guess("that it poisons")
    if (is_simple(router, name) && !simple) text = text ", poison = false"
    n = split(also[router, name], further, " ")
    for (i = 1; i <= n; i++) {
        text = text (i == 1 ? ", also = [\"" : "\", \"") host(further[i]) (i == n ? "\"]" : "")
        attached[router, network(further[i])] = label[net]
    }
    if (!((router, net) in metric)) guess("it does not tell of " net)
    item(text, router, name)
}

# Says that an own prefix is kept. One at 1 is anyway, since every offer costs more; of a static default it is written all the
# same. FRR gives a static up for an offer where its distance is that of RIP, 120, or above.
function keep(router, prefix, letter, cost_here,    far) {
    if (cost_here <= 1 && (letter != "S" || prefix != "0.0.0.0/0")) return ""
    far = (router, prefix) in distance ? distance[router, prefix] : 1
    if (letter == "S" && far >= 120) {
        guess("that it is not kept, at distance " far)
        return ""
    }
    guess("that it is kept")
    return ", kept = true"
}

# A prefix of the router's own. FRR announces what it redistributes at a metric of its configuration.
function own_item(router, prefix,    text, letter, cost_here, hop, i) {
    cost_here = metric[router, prefix]
    letter = kind[router, prefix]
    if (letter != "" && letter != "R") {
        if ((router, letter) in given) cost_here = given[router, letter]
        else if (letter != "C") cost_here = usual[router]
        if ((router, letter) in mapped) guess("the cost, by a route-map")
        else if (!((router, "running-config") in shown)) guess("the cost")
    }
    text = "prefix = \"" prefix "\""
    if (cost_here > 1) text = text ", cost = " cost_here
    text = text keep(router, prefix, letter, cost_here)
    hop = gateway[router, prefix]
    for (i = 1; i <= joins[router]; i++)
        if (network(hop "/" bits(joined[router, i])) == joined[router, i]) {
            if (hop in planned) guess("its gateway is " planned[hop])
            else text = text ", via = \"" hop "\""
        }
    if ((router, prefix) in attached) text = text ", link = \"" attached[router, prefix] "\""
    item(text)
}

# A router, with its interfaces and its own prefixes.
function print_router(router,    i, begun) {
    print "\n[[router]]"
    print_line("name = \"" router "\"", router)
    print "interface = ["
    for (i = 1; i <= joins[router]; i++) interface_item(router, joined[router, i])
    print "]"
    for (i = 1; i <= owns[router]; i++) {
        if ((router, own[router, i]) in at) continue
        if (!begun++) print "own = ["
        own_item(router, own[router, i])
    }
    if (begun) print "]"
}

# Tells whether all interfaces of the plan are so.
function all_simple(    r, i) {
    for (r = 1; r <= routers; r++)
        for (i = 1; i <= joins[names[r]]; i++)
            if (!is_simple(names[r], at[names[r], joined[names[r], i]])) return 0
    return 1
}

END {
    if (stopped) exit 1
    simple = all_simple()
    print "# A first draft of a plan, from what the routers themselves say. It writes down faults as they are: a wrong cost or a missing"
    print "# network of today becomes part of the plan, and what is down now is not in it. Read every line, those marked guessed first."
    print "version = 1"
    if (simple) print "poison = false"
    print "link = ["
    for (l = 1; l <= links; l++) link_item(nets[l])
    print "]"
    for (r = 1; r <= routers; r++) print_router(names[r])
}
