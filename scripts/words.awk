# What sheet.awk and rows.awk share: numbers and the size of a street in words.

function count(n, thing) { return n " " thing (n == 1 ? "" : "s") }

# A number in a unit, with the decimals that it needs.
function decimal(value, unit,    whole, rest) {
    whole = int(value / unit)
    rest = substr(sprintf("%d", unit + value % unit), 2)
    sub(/0+$/, "", rest)
    return rest == "" ? whole : whole "." rest
}

# How long the cycle, the shortest and the longest red, in ticks, and the way from the first signal to the last, in mm, are.
function sized(cycle, least, most, signals, way,    times) {
    times = "a cycle of " decimal(cycle, 10) " s, reds of " decimal(least, 10) (least == most ? "" : " to " decimal(most, 10)) " s, "
    if (signals == 1) return times "one signal"
    return times decimal(way, 1000) " m from signal 1 to signal " signals
}

# What is said of a refusal: a sentence about it, or its place alone where there is none.
function refused(sentence) {
    return "refused, code " code (sentence == "" ? ", place " place : ": " sentence) "."
}
