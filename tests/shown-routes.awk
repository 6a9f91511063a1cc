# The routes that a log shows, as `ripaudit expect` writes routes: of the lines of `ripaudit plan`, then those of
# `ripaudit table`, of a log whose verdict is settled or unsettled. A router shows 16 or nothing on the link that it sends
# over. What it may show on a link that carries the prefix, or to which it has the prefix attached, tells nothing of its way.
# A router with one interface does not show its route where it shows 16, nor, on such a link or where it does not poison,
# with nothing; a prefix that is not planned is left out where it is unreachable. Only interfaces on links that exchange the
# prefix count, and a router without one does not show its route.
$1 == "interface" { links[$2] = links[$2] " " $3; if (!known[$2]++) routers[++count] = $2 }
$1 == "interface" && / poison false/ { simple[$2, $3] = 1 }
$1 == "link" { has_list[$2] = 1; for (i = 4; i <= NF; i++) listed[$2, $i] = 1 }
$1 == "prefix" { planned[$2] = 1; if ($3 == "link") carries[$4, $2] = 1; else attach() }
$1 != "prefix" && $3 ~ /\// { shown[$1, $2, $3] = $4; if (!seen[$3]++) prefixes[++most] = $3 }
END {
    for (r = 1; r <= count; r++)
        for (p = 1; p <= most; p++)
            tell(routers[r], prefixes[p])
}
function attach(    i) {
    for (i = 7; i < NF; i++)
        if ($i == "link") attached[$4, $(i + 1), $2] = 1
}
function is_own(router, link, prefix) { return carries[link, prefix] || attached[router, link, prefix] }
function exchanges(link, prefix) { return !has_list[link] || listed[link, prefix] || carries[link, prefix] }
function tell(router, prefix,    all, on, n, i, metric, way, given) {
    split(links[router], all, " ")
    for (i = 1; i in all; i++)
        if (exchanges(all[i], prefix)) on[++n] = all[i]
    if (!n) return
    metric = 16
    way = "here"
    for (i = 1; i <= n; i++) {
        given = shown[router, on[i], prefix]
        if (given != "" && given < 16) metric = given
        else if (!is_own(router, on[i], prefix)) way = "over " on[i]
    }
    if (metric == 16) way = "unreachable"
    if (metric == 16 && !planned[prefix]) return
    if (metric == 16 && n == 1 && (given == 16 || simple[router, on[1]] || is_own(router, on[1], prefix))) return
    print router, prefix, metric, way
}
