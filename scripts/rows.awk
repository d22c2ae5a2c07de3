# Reads the rows of a survey as a person types them, one a line: `chainage` or `gap`, the position, the outbound and the
# inbound speed as decimal numbers, and the red, with blanks between them. It comes after words.awk.
#
# With no `code` it prints each row as the program takes it, each number as the bits of a 64-bit float; where a line is no
# row it prints a sentence about that line instead of all rows, and ends with status 1. With a `code` it decides nothing:
# the proved program has answered, with `code` and `place`, what the words of `request` ask, and it prints a sentence as
# sheet.awk does.

# A number without its sign, in small letters and with no zero in front, which some awk would take for another base.
function unsigned(w) {
    w = tolower(w)
    sub(/^[-+]/, "", w)
    sub(/^0+/, "", w)
    return w ~ /^[0-9in]/ ? w : "0" w
}

function is_number(w) {
    w = tolower(w)
    return w ~ /^[-+]?([0-9]+[.]?[0-9]*|[.][0-9]+)(e[-+]?[0-9]+)?$/ || w ~ /^[-+]?(nan|inf|infinity)$/
}

# Whether a number's size is infinite: by its word, or since it is above the greatest float.
function infinite(w) { return unsigned(w) ~ /^inf/ || unsigned(w) + 0 > 1.7976931348623157e308 }

function signed(w,    x) {
    x = unsigned(w) + 0
    return w ~ /^-/ ? -x : x
}

# The 16 hexadecimal digits of a number's bits. Doubling and halving lose no digit of a float, nor does taking its digits
# off one by one.
function bits(w,    x, power, field, digits, k) {
    if (unsigned(w) == "nan") return "nan"
    x = unsigned(w) + 0
    if (infinite(w)) { field = 2047; x = 0 }
    else if (x > 0) {
        while (x >= 2) { x /= 2; power++ }
        while (x < 1 && power > -1022) { x *= 2; power-- }
        field = x < 1 ? 0 : power + 1023
        x -= x < 1 ? 0 : 1
    }
    digits = sprintf("%03x", field + (w ~ /^-/ ? 2048 : 0))
    for (k = 1; k <= 13; k++) {
        x *= 16
        digits = digits sprintf("%x", int(x))
        x -= int(x)
    }
    return digits
}

# A line in quotes, with a mark for each byte that print cannot show.
function quoted(line) {
    gsub(/\t/, " ", line)
    gsub(/[^ -~]/, "?", line)
    return "\"" substr(line, 1, 60) (length(line) > 60 ? "..." : "") "\""
}

# What makes a line no row, or nothing.
function form_fault(    k, red) {
    if (NF == 0) return "is empty; delete it"
    if ($1 != "chainage" && $1 != "gap") return "has " quoted($0) ", and a row starts with chainage or gap"
    if (NF != 5)
        return "has " quoted($0) ", and a row has five words: chainage or gap, the position, two speeds and the red"
    for (k = 2; k <= 4; k++)
        if (!is_number($k)) return "has " quoted($0) ", and " quoted($k) " is no number as an instrument shows it, such as 30.125"
    red = unsigned($5)
    if ($5 ~ /[^0-9]/) return "has " quoted($0) ", and the red, " quoted($5) ", is no whole number of ticks"
    if (length(red) > 10 || red + 0 > 4294967295) return "has " quoted($0) ", and the red is 4,294,967,296 or more"
    return ""
}

# What is wrong with a number of the row that is refused, or nothing.
function number_fault(w, name,    has) {
    has = "its " name ", " w ", is "
    if (unsigned(w) == "nan") return has "no number"
    if (infinite(w)) return has "not finite"
    if (signed(w) < 0) return has "below 0"
    if (signed(w) > 20000) return has "above 20,000"
    if (8 * signed(w) != int(8 * signed(w))) return has "no whole multiple of 0.125"
    return ""
}

# The running distance at a row, in mm.
function distance(row,    at, k) {
    for (k = 1; k <= row; k++) at = (kind[k] == "gap" ? at : 0) + 1000 * signed(position[k])
    return at
}

function row_fault(row,    sentence) {
    sentence = number_fault(position[row], kind[row])
    if (sentence == "") sentence = number_fault(outbound[row], "outbound speed")
    if (sentence == "") sentence = number_fault(inbound[row], "inbound speed")
    if (sentence == "" && distance(row) > 20000000)
        sentence = "its signal, at " decimal(distance(row), 1000) " m, is more than 20,000 m from the origin"
    if (sentence == "" && row == 1 && (signed(outbound[1]) || signed(inbound[1])))
        sentence = "the speeds of the first row must be 0, since no link ends there"
    return sentence
}

# What is wrong with a speed of the link that ends at a row, or nothing.
function speed_fault(w, name) {
    return signed(w) < 1 || signed(w) > 40 ? "its " name ", " w ", is not from 1 to 40 m/s" : ""
}

# The sentence about a code that came from a row; a link is refused by its own place, one less than that of its row.
function fault(    row, sentence) {
    if (code == 2) return (rows ? count(rows, "row") : "no row") " came, and a street has 1 to 32 signals"
    if (code == 4) return "the cycle, " word[2] ", is not from 10 to 6,000 ticks, tenths of a second"
    row = code == 7 ? place + 1 : place
    if (code == 5)
        sentence = "its red, the last number, is not from 0 to " cycle - 1 " ticks; the cycle is " count(cycle, "tick") ", " decimal(cycle, 10) " s"
    if (code == 6)
        sentence = "its signal, at " decimal(distance(row), 1000) " m from the origin, is not beyond that of row " row - 1 ", at " \
            decimal(distance(row - 1), 1000) " m"
    if (code == 7) sentence = speed_fault(outbound[row], "outbound speed")
    if (code == 7 && sentence == "") sentence = speed_fault(inbound[row], "inbound speed")
    if (code == 12) sentence = row_fault(row)
    return sentence == "" ? "" : "row " row " has " quoted(text[row]) ", and " sentence
}

function size(    k, least, most) {
    least = most = red[1] + 0
    for (k = 2; k <= rows; k++) {
        if (red[k] + 0 < least) least = red[k] + 0
        if (red[k] + 0 > most) most = red[k] + 0
    }
    return sized(cycle, least, most, rows, distance(rows) - distance(1))
}

BEGIN {
    rows = 0
    split(request, word, " ")
    cycle = unsigned(word[2]) + 0
}

{
    sub(/\r$/, "")
    ill = form_fault()
    if (ill != "") exit
    rows++
    text[rows] = $0
    kind[rows] = $1
    position[rows] = $2
    outbound[rows] = $3
    inbound[rows] = $4
    red[rows] = unsigned($5)
}

END {
    if (ill != "") { print "line " rows + 1 " " ill; exit 1 }
    for (k = 1; code == "" && k <= rows; k++) print kind[k], bits(position[k]), bits(outbound[k]), bits(inbound[k]), red[k]
    if (code != "") print (code > 0 ? refused(fault()) : size())
}
