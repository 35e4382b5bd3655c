# Writes a model file of the benchmark.
# Usage: awk -v shape="4^15 3^17 2^29" [-v rules=30] -f model.awk
# The shape lists numbers of values, each with how many parameters have it. With rules, each
# parameter has 2 to 7 values instead, and that many constraints forbid a pair of values each.
function draw(most) { state = (state * 16807) % 2147483647; return state % most }
BEGIN {
    state = 20
    count = 0
    parts = split(shape, part, " ")
    for (i = 1; i <= parts; i++) {
        split(part[i], pair, "^")
        for (j = 0; j < pair[2]; j++) values[count++] = rules ? 2 + draw(6) : pair[1]
    }
    for (p = 0; p < count; p++) {
        printf "P%d: v0", p
        for (v = 1; v < values[p]; v++) printf ", v%d", v
        print ""
    }
    for (rule = 0; rule < rules; rule++) {
        first = draw(count)
        second = (first + 1 + draw(count - 1)) % count
        printf "IF [P%d] = \"v%d\" THEN [P%d] <> \"v%d\";\n", first, 1 + draw(values[first] - 1), second, 1 + draw(values[second] - 1)
    }
}
