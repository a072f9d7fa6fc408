# From the declarations of declared.awk: for each call a function with the same parameters, which hands them to the library with those two
# exchanged that `swap` numbers, and stands for the call in what follows; then the names of all swaps. Any two parameters are exchanged;
# a slice also whole, its pointer and its length together. On x86-64 each parameter is handed over as a word, whatever its type.
# Left out are the lengths of a pick's two outputs: as many places are asked of both, so no answer tells these two numbers apart.

# The arguments of a call, with the i-th and the j-th exchanged.
function handed(parts, count, i, j,    k, line) {
    for (k = 1; k <= count; k++)
        line = line (k > 1 ? ", " : "") parts[k == i ? j : k == j ? i : k]
    return line
}

# A case for each two parts; with `whole` only where one of them is a slice.
function cases(call, parts, count, whole,    i, j) {
    for (i = 1; i < count; i++)
        for (j = i + 1; j <= count; j++)
            if ((whole && parts[i] parts[j] ~ /,/) || (!whole && parts[i] parts[j] !~ /picks_len.*groups_len/)) {
                names[++swaps] = call ": " parts[i] " for " parts[j]
                print "    case " swaps ": return library(" handed(parts, count, i, j) ");"
            }
}

{
    call = $2
    sub(/\(.*/, "", call)
    list = $0
    sub(/.*\(/, "", list)
    sub(/\).*/, "", list)
    words = split(list, word, ", ")
    units = 0
    types = ""
    for (i = 1; i <= words; i++) {
        sub(/.*[ *]/, "", word[i])
        word[i] = "(word)" word[i]
        types = types (i > 1 ? ", word" : "word")
        if (i > 1 && word[i] == word[i - 1] "_len")
            unit[units] = unit[units] ", " word[i]
        else
            unit[++units] = word[i]
    }
    print "static uint8_t through_" call "(" list ") {"
    print "    uint8_t (*library)(" types ") = (uint8_t (*)(" types "))" call ";"
    print "    switch (swap) {"
    cases(call, word, words, 0)
    cases(call, unit, units, 1)
    print "    default: return library(" handed(word, words, 0, 0) ");"
    print "    }\n}"
    print "#define " call " through_" call
}
END {
    print "static const char *const swaps[] = {\"nothing\","
    for (i = 1; i <= swaps; i++) {
        gsub(/\(word\)/, "", names[i])
        print "    \"" names[i] "\","
    }
    print "};"
}
