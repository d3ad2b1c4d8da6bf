# What differs between two lists of functions as spell.awk writes them, the exports first and then what
# `name` declares: a line for each function that is missing, is no export, is declared twice, or has
# another result or parameter, of which the first is told. Nothing where the two agree.

BEGIN { FS = "\t" }

NR == FNR {
    if (!($1 in exported))
        order[++items] = $1
    wanted[$1, $2] = $3
    exported[$1]
    next
}

$1 == "?" {
    say("cannot be read: " $3)
    next
}

!($1 in exported) {
    if (!($1 in strange))
        say($1 " is no export")
    strange[$1]
    next
}

($1, $2) in found {
    if (!($1 in twice))
        say($1 " is declared twice")
    twice[$1]
    next
}

{
    found[$1, $2] = $3
    declared[$1]
}

END {
    for (i = 1; i <= items; i++)
        if (order[i] in declared)
            compare(order[i])
        else
            say(order[i] " is missing")
}

function say(text) {
    print name ": " text
}

# The places of a function begin at 0, its result, those of a struct at 1.
function compare(item,    place) {
    place = item ~ /^struct / ? 1 : 0
    for (; ((item, place) in wanted) || ((item, place) in found); place++)
        if (!same(item, place)) {
            say(item ": " told(item, place))
            return
        }
}

function same(item, place) {
    return ((item, place) in wanted) && ((item, place) in found) && wanted[item, place] == found[item, place]
}

function told(item, place,    part) {
    part = item ~ /^struct / ? "field " place : place == 0 ? "the result" : "parameter " place
    if (!((item, place) in wanted))
        return part " is '" found[item, place] "', and there must be none"
    if (!((item, place) in found))
        return part " is missing, and must be '" wanted[item, place] "'"
    return part " is '" found[item, place] "', and must be '" wanted[item, place] "'"
}
