# The calls that the Rattle sources export, each on a line of its own, as C declares them: uint8_t NAME(PARAMETERS). A `requires` has the
# line "requires FILE:LINE", a call without an `ensures` "no-ensures NAME" too, and an export that is written otherwise "unread".

# A type that C has no name for here stays as it is, and so is declared nowhere.
function number(type) {
    if (type == "usize")
        return "size_t"
    return type ~ /^u(8|16|32|64)$/ ? "uint" substr(type, 2) "_t" : type
}

# A slice is a pointer and a length.
function parameter(name, type,    to) {
    if (type !~ /^&/)
        return number(type) " " name
    to = type ~ /^&mut / ? "" : "const "
    sub(/^&(mut )?/, "", type)
    if (type !~ /^\[.*\]$/)
        return to number(type) " *" name
    return to number(substr(type, 2, length(type) - 2)) " *" name ", size_t " name "_len"
}

function declaration(head,    parts, count, i, pair, line) {
    count = split(head, parts, /[(),]+ ?|-> /)
    for (i = 2; i <= count; i++)
        if (split(parts[i], pair, ": ") == 2)
            line = line (i > 2 ? ", " : "") parameter(pair[1], pair[2])
    return number(parts[count]) " " parts[1] "(" line ")"
}

{
    sub(/\/\/.*/, "")
    text = text " " $0
}
/(^|[^A-Za-z0-9_])requires([^A-Za-z0-9_]|$)/ { print "requires " FILENAME ":" FNR }
END {
    gsub(/[ \t]+/, " ", text)
    gsub(/\( /, "(", text)
    unread = gsub(/no_mangle/, "no_mangle", text)
    while (match(text, /#\[unsafe\(no_mangle\)\] pub extern "C" fn [a-z0-9_]+\([^()]*\) -> [a-z0-9]+/)) {
        head = substr(text, RSTART, RLENGTH)
        sub(/.* fn /, "", head)
        print declaration(head)
        text = substr(text, RSTART + RLENGTH)
        contract = text
        sub(/ fn .*/, "", contract)
        if (contract !~ / ensures /)
            print "no-ensures " substr(head, 1, index(head, "(") - 1)
        unread--
    }
    while (unread-- > 0)
        print "unread"
}
