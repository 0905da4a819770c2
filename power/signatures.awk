# Reads a C header and prints one line for each function that it declares: its name, then its result and its parameters as
# the module has them. A 32-bit number has behind its type how a POWER caller takes it to be extended. A declaration of
# another form stops it.
function die(what) { print FILENAME ": " what >"/dev/stderr"; bad = 1; exit 1 }

function number(type) {
    if (type == "int32_t") return "i32:signext"
    if (type == "uint32_t") return "i32:zeroext"
    if (type == "size_t" || type == "uint64_t") return "i64"
    return ""
}

function result(type, name) {
    if (type == "void") return "void"
    if (number(type) == "") die("the result of " name " is " type ", which power/signatures.awk does not know")
    return number(type)
}

# a parameter is a number with a name, or a pointer to words, bytes or a size
function parameter(text, name,    type) {
    type = text
    sub(/^const /, "", type)
    if (type ~ /^(uint8_t|uint32_t|size_t) \*[a-z_0-9]+$/) return "ptr"
    sub(/ [a-z_0-9]+$/, "", type)
    if (text ~ /^const / || number(type) == "")
        die("a parameter of " name " is '" text "', which power/signatures.awk does not know")
    return number(type)
}

function declaration(text,    head, name, list, n, i, line) {
    if (text !~ /^[a-z0-9_]+ [a-z0-9_]+\([^()]*\)$/) die("'" text "' is not a function's declaration")
    head = substr(text, 1, index(text, "(") - 1)
    name = substr(head, index(head, " ") + 1)
    line = name " " result(substr(head, 1, index(head, " ") - 1), name)
    text = substr(text, length(head) + 2)
    sub(/\)$/, "", text)
    n = split(text, list, /, /)
    for (i = 1; i <= n; i++) line = line " " parameter(list[i], name)
    print line
}

# what only C++ reads is passed over, and so are the other lines of the preprocessor
/^#ifdef __cplusplus$/ { plus = 1 }
plus { if (/^#endif/) plus = 0; next }
/^#/ { next }
{ all = all " " $0 }

END {
    if (bad) exit 1
    while ((from = index(all, "/*")) > 0) {
        rest = substr(all, from + 2)
        all = substr(all, 1, from - 1) " " substr(rest, index(rest, "*/") + 2)
    }
    gsub(/[ \t]+/, " ", all)
    count = split(all, parts, /;/)
    for (k = 1; k < count; k++) {
        sub(/^ /, "", parts[k])
        declaration(parts[k])
    }
    if (parts[count] !~ /^ *$/) die("'" parts[count] "' is not a function's declaration")
}
