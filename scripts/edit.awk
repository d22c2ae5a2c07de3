# Makes an edit's change in a crate's folder, `crate`, as rt makes it: a line 'file: PATH' names a file of the crate, and each
# pair of lines 'old: TEXT' and 'new: TEXT' after it puts the one text, which stands there exactly once, in the other's place.
# Where that cannot be done it says why and ends with status 1, and no file is changed.

function stop(why) {
    print "the edit cannot be applied: " why
    failed = 1
    exit 1
}

# The text of a file, as the pairs before have left it.
function load(    line, had) {
    if (path in text) return
    while ((had = (getline line <(crate "/" path))) > 0) text[path] = text[path] line "\n"
    if (had < 0) stop("there is no file " path)
    close(crate "/" path)
}

function put(new,    at) {
    if (path == "" || old == "") stop("a line 'new:' has no line 'file:' or 'old:' before it")
    load()
    at = index(text[path], old)
    if (!at || index(substr(text[path], at + length(old)), old)) stop("an old text does not stand in " path " once")
    text[path] = substr(text[path], 1, at - 1) new substr(text[path], at + length(old))
    old = ""
    pairs++
}

/^file: / { path = substr($0, 7); gsub(/^[ \t]+|[ \t\r]+$/, "", path) }
/^old: / { old = substr($0, 6) }
/^new:/ { put(substr($0, substr($0, 5, 1) == " " ? 6 : 5)) }

END {
    if (failed) exit 1
    if (!pairs) stop("it has no pair of lines 'old:' and 'new:'")
    for (path in text) printf "%s", text[path] >(crate "/" path)
}
