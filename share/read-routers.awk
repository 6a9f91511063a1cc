# Notes what daemons of FRR and BIRD say, after read-sections.awk and for draft-plan.awk. Of a router it notes the interfaces on
# which it speaks RIP (`on`), all its addresses, what interfaces of BIRD cost, the prefixes that it announces itself (`own`) with
# the next hop and the metric of each, and of FRR those that it has learned, each with who told it.

# Notes the first address of an interface, or a further one.
function add_address(text) {
    if ((router, name) in address) also[router, name] = also[router, name] " " text
    else address[router, name] = text
}

# Notes a prefix that the router announces itself.
function add_own(text, hop, cost) {
    if ((router, text) in metric) stop(router ": " text " is listed twice")
    own[router, ++owns[router]] = prefix = text
    gateway[router, prefix] = hop
    metric[router, prefix] = cost
}

FNR == 1 {
    depth = unnamed = comment = 0
    statement = ""
}
is_error() { stop(router ": show " section ": " $0) }

# FRR. Below `Passive Interface(s):` stand those that do not speak. `show ip rip` has metric 1 for what is redistributed.
section == "ip rip status" && /^  [^ ]/ { part = $1 }
section == "ip rip status" && /Default redistribution metric/ { usual[router] = $NF }
section == "ip rip status" && / Send +Recv / { part = "Speaking"; next }
section == "ip rip status" && /^    / && part == "Speaking" { on[router, ++count[router]] = $1 }
section == "ip rip status" && /^    / && part == "Passive" { quiet[router, $1] = 1 }
section == "interface" && /^Interface / { name = $2 }
section == "interface" && /^  Type: Loopback/ { quiet[router, name] = 1 }
section == "interface" && /^  inet / && !/ secondary/ { add_address($2) }
section == "ip rip" && $5 == "self" && $4 < 16 {
    add_own($2, $3, $4)
    kind[router, prefix] = substr($1, 1, 1)
}
section == "ip rip" && /^R/ && $5 != "self" && $4 < 16 {
    learned[router, ++learns[router]] = $2
    teller[router, learns[router]] = $5
}

# BIRD. It lists interfaces that are down too, and all that it exports, also what it learned by RIP.
section == "rip interfaces" && $2 == "Up" {
    on[router, ++count[router]] = $1
    cost[router, $1] = $3
}
section == "interfaces" && /^[^ \t]/ { name = $1 }
section == "interfaces" && /^\t[0-9.]+\/[0-9]+ .*Preferred/ { add_address($1) }
section == "route all export" && /^[^ \t]/ {
    prefix = ""
    if (/^[0-9.]+\/[0-9]+ / && $3 != "[" exporter[router]) add_own($1, "", 1)
}
section == "route all export" && $1 == "via" && prefix != "" { gateway[router, prefix] = $2 }
section == "route all export" && $1 == "RIP.metric:" && prefix != "" { metric[router, prefix] = $2 }
