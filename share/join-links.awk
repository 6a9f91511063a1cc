# Puts the interfaces of each router on links, for draft-plan.awk. Those whose addresses are of one network are on one link: `at` says
# which interface of a router is on the link of a network, `joined` lists the networks of a router, and `label` names their links.

# The network of an address with its length, as 10.1.0.0/16 of 10.1.0.1/16.
function network(text,    part, rest, size, net, i) {
    split(text, part, /[.\/]/)
    rest = 32 - part[5]
    for (i = 4; i >= 1; i--) {
        for (size = 1; size < 256 && rest > 0; rest--) size *= 2
        net = part[i] - part[i] % size (i < 4 ? "." : "") net
    }
    return net "/" part[5]
}

# An address without its length.
function host(text) {
    sub(/\/.*/, "", text)
    return text
}

# The length of a prefix.
function bits(text) {
    sub(/.*\//, "", text)
    return text
}

# Ends where a command's output is not in the file of a router.
function need(router, section) {
    if (!((router, section) in shown)) stop(router ": \"show " section "\" is not in its file")
}

# Puts the interfaces of a router on links.
function join(router,    i, name, net, seat) {
    if ((router, "rip interfaces") in shown) {
        need(router, "interfaces")
        need(router, "route all export")
    } else if ((router, "ip rip status") in shown) {
        need(router, "interface")
        need(router, "ip rip")
    } else stop(router ": neither \"show ip rip status\" nor \"show rip interfaces\" is in its file")
    for (i = 1; i <= count[router]; i++) {
        name = on[router, i]
        if ((router, name) in quiet) continue
        if (!((router, name) in address)) stop(router ": its interface " name " has no address")
        net = network(address[router, name])
        seat = net " " host(address[router, name])
        if ((router, net) in at) stop(router ": two interfaces, " at[router, net] " and " name ", are in " net)
        if (seat in holder) stop(router ": its address " host(address[router, name]) " is also that of " holder[seat])
        at[router, net] = name
        holder[seat] = router
        planned[host(address[router, name])] = router
        joined[router, ++joins[router]] = net
        if (++members[net] == 1) {
            nets[++links] = net
            label[net] = name
        } else if (label[net] != name) label[net] = ""
        last[net] = router
    }
    if (!joins[router]) stop(router ": it speaks RIP on no interface")
}

# Names the links after their interfaces, if each has a name of its own there, and else after their networks.
function name_links(    l, used, good) {
    good = 1
    for (l = 1; l <= links; l++)
        if (used[label[nets[l]]]++ || label[nets[l]] !~ /^[A-Za-z0-9._-]+$/) good = 0
    for (l = 1; l <= links && !good; l++) {
        label[nets[l]] = nets[l]
        sub(/\//, "-", label[nets[l]])
    }
}

END {
    if (stopped) exit 1
    for (r = 1; r <= routers; r++) join(names[r])
    name_links()
}
