# Carries the toolchain's module, as text for x86-64, over to a POWER target, for an older clang to read. Every word of the
# module is one of the lists here, or it stops.
#   awk -f carry.awk part=signatures FILE part=sample FILE part=module FILE
# The signatures are those of power/signatures.awk; the sample is what clang makes of an empty C function for the target.
function die(what) { print "power/carry.awk: " what >"/dev/stderr"; bad = 1; exit 1 }

function list(set, text,    n, i, words) {
    n = split(text, words, " ")
    for (i = 1; i <= n; i++) set[words[i]] = 1
}

BEGIN {
    # these mean the same for every target, and to clang 19; integers over 64 bits are not among them, because their
    # alignment differs, and no floats, vectors, atomics, calling conventions or assembler, which no crate needs
    list(known, "define declare internal private unnamed_addr constant attributes")
    list(known, "void ptr i1 i8 i16 i32 i64 x to label align true false null zeroinitializer c")
    list(known, "alloca load store getelementptr inbounds extractvalue call br switch ret unreachable")
    list(known, "add sub mul udiv sdiv urem srem and or xor shl lshr ashr nuw nsw trunc zext sext icmp")
    list(known, "eq ne ult ule ugt uge slt sle sgt sge")
    list(known, "noundef zeroext nocapture readonly writeonly immarg range")
    list(known, "nounwind willreturn nocallback nofree nosync speculatable noreturn cold")
    # what the toolchain says of whether a function is put into its callers; clang 19 takes both words so, for any target
    list(known, "alwaysinline noinline")
    list(known, "memory none argmem inaccessiblemem read write readwrite llvm.ident")
    list(intrinsics, "llvm.memcpy.p0.p0.i64 llvm.memmove.p0.p0.i64 llvm.memset.p0.i64 llvm.trap")
    list(intrinsics, "llvm.ctpop.i32 llvm.ctpop.i64 llvm.cttz.i32 llvm.cttz.i64 llvm.ctlz.i32 llvm.ctlz.i64")
    for (i = 0; i < 16; i++) hex[substr("0123456789ABCDEF", i + 1, 1)] = i
    for (i = 32; i < 127; i++) code[sprintf("%c", i)] = i
    # of a data layout, what does not bear on those types
    list(apart, "e E m:e p270:32:32 p271:32:32 p272:64:64 i128:128 f80:128 n8:16:32:64 n32:64 Fn32 Fi64 v256:256:256")
    list(apart, "v512:512:512")
}

# the text between the first pair of double quotes
function quoted(text) { sub(/^[^"]*"/, "", text); sub(/".*/, "", text); return text }

# what a data layout says of the types that a module may have
function layout(text,    n, i, parts, kept) {
    n = split(text, parts, "-")
    for (i = 1; i <= n; i++) if (!(parts[i] in apart)) kept = kept " " parts[i]
    return kept
}

# The constant that a line defines, written as numbers. The module has it as bytes, the lowest of each number first, and does
# not say where a number ends; so only a table that leaves no doubt is taken, all the powers of ten of 32 bits
function powers_of_ten(line,    head, text, i, c, place, value, n, numbers) {
    if (line !~ / \[40 x i8\] c"[^"]*", align 4$/) die("a constant that may have numbers of more than a byte, in: " line)
    head = line
    sub(/ \[40 x i8\] c".*/, "", head)
    text = quoted(line)
    for (i = 1; i <= length(text); i++) {
        c = substr(text, i, 1)
        if (c == "\\") {
            value += (16 * hex[substr(text, i + 1, 1)] + hex[substr(text, i + 2, 1)]) * 256 ^ place
            i += 2
        } else value += code[c] * 256 ^ place
        if (++place < 4) continue
        if (value != 10 ^ n) die("a constant that may have numbers of more than a byte, in: " line)
        numbers = numbers (n++ ? ", " : "") "i32 " sprintf("%.0f", value)
        place = value = 0
    }
    return head " [10 x i32] [" numbers "], align 4"
}

# every word that is neither a name nor a text is known
function check_words(line,    text) {
    text = line
    gsub(/[@%!]"[^"]*"/, "", text)
    gsub(/c"[^"]*"/, "c", text)
    sub(/;.*/, "", text)
    sub(/^[A-Za-z0-9_.$-]+:/, "", text)
    gsub(/[@%][A-Za-z0-9_.$-]+/, "", text)
    if (text ~ /"/) die("a text that is not known, in: " line)
    while (match(text, /[A-Za-z_][A-Za-z0-9_.]*/)) {
        if (!(substr(text, RSTART, RLENGTH) in known)) die("'" substr(text, RSTART, RLENGTH) "' is not known, in: " line)
        text = substr(text, RSTART + RLENGTH)
    }
}

# a function's name without its @ and what surrounds it
function name_in(line) { sub(/^[^@]*@/, "", line); sub(/\(.*/, "", line); return line }

# splits the parameters of a line at the commas that stand in no parentheses; how many there are
function parameters(line, into,    i, c, depth, n) {
    n = 0
    for (i = index(line, "("); i <= length(line); i++) {
        c = substr(line, i, 1)
        if (c == ")" && --depth == 0) break
        if (depth == 1 && n == 0) { n = 1; into[1] = "" }
        if (depth == 1 && c == ",") { into[++n] = ""; i++; continue }
        if (depth > 0) into[n] = into[n] c
        if (c == "(") depth++
    }
    rest = substr(line, i)
    return n
}

# a type of the module with the extension that the header's type asks for, before it (a result) or behind it
function extended(says, is, name, before,    want) {
    split(says, want, ":")
    if (is != want[1]) die(name ": the header has " want[1] ", the module " is)
    if (want[2] == "") return is
    return before ? want[2] " " is : is " " want[2]
}

# the line that defines an exported function, with the extensions
function exported(line,    name, says, n, i, own, head, words, type, text) {
    name = name_in(line)
    if (!(name in signature)) die("the module exports " name ", which the header does not declare")
    n = split(signature[name], says, " ")
    head = substr(line, 1, index(line, "@") - 1)
    type = words[split(head, words, " ")]
    text = substr(head, 1, length(head) - length(type) - 1) extended(says[1], type, name, 1) " @" name "("
    i = parameters(line, own)
    if (i != n - 1) die(name ": the header has " n - 1 " parameters, the module " i)
    for (i = 1; i < n; i++) {
        type = own[i]
        sub(/ .*/, "", type)
        text = text (i > 1 ? ", " : "") extended(says[i + 1], type, name, 0) substr(own[i], length(type) + 1)
    }
    met[name] = 1
    return text rest
}

# no other line names an exported function: a call of one would have to be extended too
function check_names(line,    text) {
    text = line
    while (match(text, /@[A-Za-z0-9_.$-]+/)) {
        if (substr(text, RSTART + 1, RLENGTH - 1) in signature) die("the module itself uses an exported function, in: " line)
        text = substr(text, RSTART + RLENGTH)
    }
}

part == "signatures" { name = $1; sub(/^[^ ]* /, ""); signature[name] = $0; next }

part == "sample" {
    if (/^target datalayout = "/) new_layout = quoted($0)
    if (/^target triple = "/) new_triple = quoted($0)
    if (match($0, /"target-cpu"="[^"]*"/)) cpu = substr($0, RSTART, RLENGTH)
    if (match($0, /"target-features"="[^"]*"/)) cpu = cpu " " substr($0, RSTART, RLENGTH)
    next
}

/^target datalayout = "/ {
    if (layout(quoted($0)) != " i64:64 S128") die("the module's data layout is not known: " quoted($0))
    if (layout(new_layout) != layout(quoted($0))) die("the target's data layout is not known: " new_layout)
    print "target datalayout = \"" new_layout "\""
    next
}

/^target triple = "/ {
    if (quoted($0) != "x86_64-unknown-linux-gnu") die("the module's target is not known: " quoted($0))
    if (new_triple !~ /^powerpc64(le)?-unknown-linux-gnu$/) die("the target is not known: " new_triple)
    print "target triple = \"" new_triple "\""
    laid = 1
    next
}

# a text remains only where an attribute's name and value are both carried over
/^attributes #[0-9]+ = \{ / {
    line = $0
    gsub(/ nocreateundeforpoison/, "", line)
    text = line
    sub(/ "probe-stack"="inline-asm"/, "", text)
    sub(/ "stack-probe-size"="[0-9]+"/, "", text)
    sub(/ "target-cpu"="x86-64"/, "", text)
    check_words(text)
    sub(/"target-cpu"="x86-64"/, cpu, line)
    print line
    next
}

/^source_filename = "[A-Za-z0-9_]*"$/ { print; next }

{
    gsub(/captures\(none\)/, "nocapture")
    check_words($0)
}

/^declare / {
    if (!(name_in($0) in intrinsics)) die("the module needs a function that is not known: " name_in($0))
    print
    next
}

# a constant of single bytes, or of zeros, is the same in both byte orders
/^@/ && !/ zeroinitializer, align [0-9]+$/ && !/ \[[0-9]+ x i8\] c"[^"]*", align 1$/ && new_triple ~ /^powerpc64-/ {
    check_names($0)
    print powers_of_ten($0)
    next
}

# the numbers of a function that are a byte each
/^define / { split("", bytes) }
/^  %[a-z0-9.]+ = zext i8 / { split($0, token, " "); bytes[token[1]] = 1 }

/^define / && !/^define (internal|private) / { print exported($0); next }

# The tag of an enum is a byte, and the module writes it with the bytes that fill it up to the next field, as one number at an
# alignment of 1: its lowest byte goes first, which is so of itself only where numbers are stored that way
/^  store i(16|32|64) [^,]+, ptr %[a-z0-9.]+, align 1$/ && new_triple ~ /^powerpc64-/ {
    check_names($0)
    split($0, token, " ")
    type = token[2]
    text = token[3]
    sub(/,$/, "", text)
    shift = substr(type, 2) - 8
    if (text in bytes) {
        print "  " text ".tag" ++tagged " = shl " type " " text ", " shift
        tag = text ".tag" tagged
    } else {
        if (text !~ /^[0-9]+$/ || text + 0 > 255) die("a number that is stored at an alignment of 1 and is no tag, in: " $0)
        tag = sprintf("%.0f", text * 2 ^ shift)
    }
    print "  store " type " " tag ", " substr($0, index($0, "ptr "))
    next
}

{ check_names($0); print }

END {
    if (bad) exit 1
    if (!laid) die("the module names no target")
    if (cpu !~ /^"target-cpu"="[^"]*" "target-features"="[^"]*"$/)
        die("clang says no processor and features of its own for the target")
    for (name in signature) if (!(name in met)) die("the header declares " name ", which the module does not define")
}
