# Looks at a street sheet, whose bytes come as `od -An -v -t u1` prints them, and says a sentence about it, after words.awk.
#
# It decides nothing: the proved program has answered, with `code` and `place`, what the words of `request` ask. With
# code 0 the sentence says how long cycle, reds and street are. Else it says what was refused, and on which line. Where
# this reading of the sheet does not come to the program's code, it names no line.

# A byte as it is shown: print as it is, and marks, as docs/SHEETS.md has them, for what print cannot show.
function shown_byte(byte) {
    if (byte >= 32 && byte < 127) return sprintf("%c", byte)
    if (byte == 9) return "<TAB>"
    if (byte == 13) return "<CR>"
    return "<" byte ">"
}

# Adds a byte to the line that it stands on. In the text that is read, what print cannot show stands as `?`.
function add(byte) {
    if (fresh) {
        lines++
        text[lines] = shown[lines] = ""
        fresh = 0
    }
    if (byte == 10) {
        ended[lines] = fresh = 1
        return
    }
    if (byte < 32 || byte > 126) odd[lines] = odd[lines] byte " "
    text[lines] = text[lines] (byte < 32 || byte > 126 ? "?" : sprintf("%c", byte))
    if (length(shown[lines]) < 60) shown[lines] = shown[lines] shown_byte(byte)
    else cut[lines] = "..."
}

# A line in quotes.
function quoted(line,    s) {
    s = shown[line]
    sub(/^<239><187><191>/, "<BOM>", s)
    gsub(/<194><160>|<160>/, "<NBSP>", s)
    return "\"" s cut[line] "\""
}

function number(s) {
    return s ~ /^[0-9]+$/ && length(s) <= 8 && (s == "0" || s !~ /^0/)
}

# Whether a line is formed as one of so many numbers, 1 or 2.
function formed(line, columns,    at) {
    at = index(text[line], " ")
    if (columns == 1) return number(text[line])
    return at > 0 && number(substr(text[line], 1, at - 1)) && number(substr(text[line], at + 1))
}

function first(line) { return substr(text[line], 1, index(text[line], " ") - 1) + 0 }
function second(line) { return substr(text[line], index(text[line], " ") + 1) + 0 }

# The next line, and what should stand there. Answers whether it does; if not, reading stops.
function take(columns, what) {
    line++
    asked = columns
    should = what
    if (line <= lines && ended[line] && formed(line, columns)) return 1
    own = 1
    return 0
}

# Reads the sheet from the top. `own` becomes the code of the first fault, 0 where there is none, and `line` its line.
function read_sheet(    k) {
    if (!take(1, "1, the count of the first section")) return
    if (text[line] != "1") { own = 1; return }
    if (!take(1, "the cycle")) return
    if (!take(1, "the count of signals")) return
    signals = text[line] + 0
    if (signals < 1 || signals > 32) { own = 2; return }
    for (k = 1; k <= signals; k++)
        if (!take(2, "the distance and the red of signal " k " of " signals)) return
    if (!take(1, "the count of links, " signals - 1)) return
    if (text[line] != signals - 1) { own = 2; return }
    for (k = 1; k < signals; k++)
        if (!take(2, "the outbound and the inbound speed of link " k " of " signals - 1)) return
    if (line < lines) { line++; own = 1; should = "" }
}

# What is to be seen on a line that is not formed as it should be; nothing where it is not plain.
function hint(    t) {
    t = text[line]
    if (odd[line] != "") return hidden(" " odd[line])
    if (t == "") return "delete the empty line"
    if (t ~ /^ /) return "it starts with a space"
    if (t ~ / $/) return "it ends with a space"
    if (t ~ /  /) return "it has two spaces side by side"
    if (t ~ /[0-9][,.'][0-9]/) return "a number is whole and has no separator: tenths of a second, mm, mm/s"
    if (t ~ /[-+]/) return "no number has a sign"
    if (t ~ /[^0-9 ]/) return "a line has digits and spaces alone, no units, words or remarks"
    if (t ~ /(^| )0[0-9]/) return "a number has no zero in front"
    if (t ~ /[0-9][0-9][0-9][0-9][0-9][0-9][0-9][0-9][0-9]/) return "a number has at most 8 digits"
    return miscounted(t)
}

# What the bytes of a line that print cannot show are, as far as people make them.
function hidden(bytes) {
    if (bytes ~ /^ 239 187 191 /) return "it starts with a byte order mark; save the sheet as UTF-8 without one"
    if (bytes ~ / 13 /) return "it has a carriage return, as files from Windows do; save the sheet with LF line ends"
    if (bytes ~ / 9 /) return "it has a tab where one space should be"
    if (bytes ~ / 160 /) return "it has a non-breaking space; type an ordinary one"
    return "it has bytes that are no plain text; save the sheet as UTF-8 or ASCII"
}

# What a line with too few or too many numbers tells.
function miscounted(t) {
    if (!ended[line]) return ""
    if (line == 1) return "the first line is 1, whatever the street"
    if (asked == 2 && !number(t)) return "it has more than two numbers; a number has no space within"
    if (asked == 2 && line > 3 + signals) return "one number is missing"
    if (asked == 2) return "one number is missing, or the count of signals on line 3 is too large"
    if (signals) return "the count is missing, or that of signals on line 3 is too small"
    return "it has more than one number"
}

function with_hint(sentence,    h) {
    h = hint()
    return h == "" ? sentence : sentence "; " h
}

# The sentence about a sheet that is not formed as it should be.
function form_fault(    whole, has) {
    whole = "one of " count(signals, "signal") " has " 2 * signals + 3 " lines"
    if (line > lines) {
        has = lines ? "the sheet ends after line " lines : "the sheet is empty"
        return has (signals ? ", and " whole : "") ": line " line " should have " should
    }
    has = shown[line] == "" ? "is empty" : "has " quoted(line)
    if (should == "") return "line " line " is one too many, since " whole ", and it " has
    has = "line " line " should have " should ", and " has
    if (ended[line]) return with_hint(has)
    if (formed(line, asked)) return has " with no line end; press Enter after the last number"
    return with_hint(has " with no line end")
}

function count_fault(    has) {
    has = "line " line " has " quoted(line) ", and "
    if (line == 3) return has "a street has 1 to 32 signals"
    return has count(signals, "signal") (signals == 1 ? " has " : " have ") count(signals - 1, "link")
}

function offsets_fault() {
    return "measure takes an offset for each signal, " signals " here, and was given " words - 1
}

function distance_fault(    row, sentence) {
    row = 3 + place
    sentence = "line " row " has " quoted(row) ", and the distance of signal " place ", its first number, is "
    if (first(row) > 20000000) return sentence "above 20,000,000 mm"
    return sentence "not above that of signal " place - 1 "; distances are from the origin, not from signal to signal"
}

function speed_fault(    row) {
    row = 4 + signals + place
    return "line " row " has " quoted(row) ", and a speed of link " place ", from signal " place " to signal " place + 1 \
        ", is not from 1,000 to 40,000 mm/s; speeds are in mm/s, not in km/h, and 50 km/h is 13889"
}

function red_fault(    row) {
    row = 3 + place
    return "line " row " has " quoted(row) ", and the red of signal " place ", its second number, is not from 0 to " \
        cycle - 1 " ticks; the cycle on line 2 is " count(cycle, "tick") ", " decimal(cycle, 10) " s"
}

# A cycle between two whole seconds, of which both are in range.
function seconds_fault(    below) {
    below = int(cycle / 10)
    return "line 2 has " quoted(2) ", and a cycle of " decimal(cycle, 10) " s is no whole number of seconds, as a cabinet needs; " \
        "type " 10 * below " for " below " s, or " 10 * (below + 1) " for " below + 1 " s"
}

# The shortest green, in halves, which no band can exceed.
function green(    k, most) {
    for (k = 1; k <= signals; k++) if (second(3 + k) > most) most = second(3 + k)
    return 2 * (cycle - most)
}

# The direction that is the place of a platoon or a volume.
function way() { return place == 1 ? "outbound" : "inbound" }

# A platoon that is too long: one that was typed, or that of a volume, V*C*h/18,000 rounded up.
function platoon_fault(    halves, limit) {
    limit = "above 100,000 halves, twentieths of a second"
    if (word[1] != "volumes") return "the " way() " platoon, " word[1 + place] ", is " limit
    halves = int((word[1 + place] * cycle * word[4] + 17999) / 18000)
    return "the " way() " volume, " word[1 + place] ", comes to a platoon of " halves " halves at this cycle and headway, " limit
}

function volume_fault() {
    if (place == 3) return "the headway, " word[4] ", is not from 1 to 100 ticks, tenths of a second"
    return "the " way() " volume, " word[1 + place] ", is above 10,000 vehicles an hour"
}

# The sentence about a code that came from the numbers: those of the sheet, 4 to 7 and 13, or those of the request.
function number_fault() {
    if (code == 4) return "line 2 has " quoted(2) ", and the cycle is not from 10 to 6,000 ticks, tenths of a second"
    if (code == 5) return red_fault()
    if (code == 6) return distance_fault()
    if (code == 7) return speed_fault()
    if (code == 8) return platoon_fault()
    if (code == 9)
        return "the width " word[2] " is not from the greater of 1 and B, the second number of the equal plan, up to " \
            green() " halves, the shortest green"
    if (code == 10)
        return "the offset of signal " place ", " word[1 + place] ", is not below the cycle of " 2 * cycle " halves"
    if (code == 11) return volume_fault()
    if (code == 13) return seconds_fault()
    return ""
}

function fault(    sentence) {
    if (code == 1 && bytes > 2048)
        sentence = "the sheet has more than 2,048 bytes, too many for any street; " (own == 1 ? form_fault() : count_fault())
    else if (code == 1 && own == 1) sentence = form_fault()
    else if (code == 2 && own == 2) sentence = count_fault()
    else if (code == 2 && own == 0 && word[1] == "measure") sentence = offsets_fault()
    else if (code > 2 && own == 0) sentence = number_fault()
    return refused(sentence)
}

function size(    k, least, most) {
    least = most = second(4)
    for (k = 5; k < 4 + signals; k++) {
        if (second(k) < least) least = second(k)
        if (second(k) > most) most = second(k)
    }
    return sized(cycle, least, most, signals, first(3 + signals) - first(4))
}

BEGIN {
    fresh = 1
    lines = bytes = line = own = signals = 0
    # In seconds a plan is asked for by the same words.
    sub(/^seconds /, "", request)
    words = split(request, word, " ")
}

{
    for (k = 1; k <= NF; k++) add($k + 0)
    bytes += NF
}

END {
    read_sheet()
    cycle = text[2] + 0
    if (code > 0) print fault()
    else if (own == 0) print size()
}
