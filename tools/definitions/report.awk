# Reads the index of calls and values, then rt's log of the theorems that the bits of where the two part are 0: call, what
# and word of a sequence, value and word of values. A bit whose theorem is refused is 1.
BEGIN {
    split("number taken listed entered measured found tag distance", field, " ")
    split("answer,listing,sample table,octant table,state", what, ",")
}

FNR == NR { kind[$1] = $3; text[$1, $2] = $4; next }

match($0, /error: `[^`]*-bit-[0-9]+-[0-9]+`/) {
    count = split(substr($0, RSTART + 8, RLENGTH - 9), part, /-bit-|-/)
    name = substr($0, RSTART + 8, RLENGTH - 9)
    sub(/-bit-.*$/, "", name)
    if (!(name in seen)) order[++lists] = name
    seen[name] = 1
    at[name, part[count - 1]] += 2 ^ part[count]
}

END {
    for (k = 1; k <= lists; k++) {
        name = order[k]
        place = at[name, 0] + 0
        if (kind[name] == "value")
            where = "word " at[name, 1] + 0
        else if (at[name, 1] == 1)
            where = field[at[name, 2] + 1]
        else
            where = what[at[name, 1]] ", word " at[name, 2] + 0
        print "  " name ", " kind[name] " " place ", " where ": " text[name, place]
    }
}
