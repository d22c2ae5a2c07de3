# Prints what the emulator counted, as tables: the instructions of each call, its divisions, and the places at which the
# library's plan divides.
#
# Files, each after its word: `calls`, what was called between two marks, as call|n|program, a line a stretch; `places`,
# the address of each division in the program, and where that is; `record`, a stretch's number, an address, and how often
# it was executed. Addresses are hexadecimal, without leading zeros.
BEGIN { FS = "|" }

part == "calls" { stretches++; call[stretches] = $1; signals[stretches] = $2; program[stretches] = $3 }

part == "places" { place[$1] = $2; order[++places] = $1 }

part == "record" {
    instructions[$1] += $3
    if (!($2 in place)) next
    divisions[$1] += $3
    if (call[$1] == "The equal plan" && program[$1] == "library") { at[$2, signals[$1]] += $3; used[$2] = 1 }
}

# A table with a row for each call and number of signals, and a column for each program.
function table(title, counts, ratios,    i, n) {
    printf "**%s of one call, C = 650, wide reds**\n\n", title
    printf "| Call | n | library | same | plain |%s\n", ratios ? " library over same | library over plain |" : ""
    printf "|---|---|---|---|---|%s\n", ratios ? "---|---|" : ""
    for (i = 1; i <= stretches; i++) {
        n[program[i]] = counts[i]
        if (program[i] != "plain") continue
        printf "| %s | %d | %d | %d | %d |", call[i], signals[i], n["library"], n["same"], n["plain"]
        if (ratios) printf " %.2f | %.2f |", n["library"] / n["same"], n["library"] / n["plain"]
        printf "\n"
    }
    printf "\n"
}

END {
    table("Instructions", instructions, 1)
    table("Divisions", divisions, 0)
    printf "**Where the library's equal plan divides**\n\n| Place | n = 1 | 2 | 10 | 32 |\n|---|---|---|---|---|\n"
    for (k = 1; k <= places; k++) {
        a = order[k]
        if (a in used) printf "| %s | %d | %d | %d | %d |\n", place[a], at[a, 1], at[a, 2], at[a, 10], at[a, 32]
    }
}
