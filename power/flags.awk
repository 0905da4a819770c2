# Reads the words that the toolchain gives its clang, one to a line, and prints those that hold for any target. Those that
# name the target, the module and what is written are left out, and so are those for x86-64 alone; one that is not listed
# here stops it.
function die(word) {
    print "power/flags.awk: the toolchain gives its clang a word that is not known: " word >"/dev/stderr"
    exit 1
}

BEGIN {
    split("-c -O3 -fPIC -Werror -ffunction-sections -fdata-sections --no-default-config -no-canonical-prefixes " \
        "-fintegrated-cc1 -fno-crash-diagnostics", words, " ")
    for (i in words) known[words[i]] = 1
    split("-mllvm -trap-unreachable;-mllvm -no-trap-after-noreturn;-mllvm -disable-machine-licm;" \
        "-mllvm -disable-postra-machine-licm;-mllvm -sink-common-insts=false;-x ir", pairs, ";")
    for (i in pairs) known[pairs[i]] = 1
    # these hold for x86-64 alone
    apart["-mllvm -no-x86-call-frame-opt"] = 1
}

# the first word of two
/^(-mllvm|-Xclang|-x|-o)$/ && first == "" { first = $0; next }

first == "-o" { first = ""; next }

first != "" && (first " " $0) in apart { first = ""; next }

first != "" {
    if (!((first " " $0) in known)) die(first " " $0)
    print first
    print
    first = ""
    next
}

/^--target=x86_64-unknown-linux-gnu$/ || /^-march=x86-64$/ || /^--sysroot=/ || /\.bc$/ { next }

!($0 in known) { die($0) }

{ print }
