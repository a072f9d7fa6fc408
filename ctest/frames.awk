# From `objdump -dr --no-show-raw-insn` of the archive: the most stack that each exported call can take on any path, a line NAME BYTES for
# each. A function's frame is counted whole: every push in it and every step down of the stack pointer, a return address, and below the
# last function of a chain the 128 bytes that the calling convention lets it use. memset's own frame is not counted. A frame of many
# pages is stepped down page by page in a loop, which ends at %r11: so far below the stack pointer as is written in front of the loop,
# and that is counted. What would make the sum wrong has the line "unread": another change of the stack pointer, a step down in
# another loop, a call through a pointer or without a name, a cycle of calls.

function hexadecimal(digits,    i, value) {
    for (i = 1; i <= length(digits); i++)
        value = 16 * value + index("0123456789abcdef", substr(digits, i, 1)) - 1
    return value
}

function unread(what) {
    print "unread " name ": " what
    failed = 1
}

# The stack below and with a function, `chain` calls down.
function deepest(caller, chain,    i, deep, most, callees, count) {
    if (chain > 20) {
        unread("a cycle of calls")
        return 0
    }
    most = 128
    count = split(calls[caller], callees, " ")
    for (i = 1; i <= count; i++) {
        deep = callees[i] == "memset" ? 8 : deepest(callees[i], chain + 1)
        most = deep > most ? deep : most
    }
    return 8 + frame[caller] + most
}

# The number of `$0xNUMBER,REGISTER`.
function immediate(operands) {
    return hexadecimal(substr(operands, 4, index(operands, ",") - 4))
}

# A loop that was counted as one has to have been one.
function ended() {
    if (open)
        unread("%r11 ends no loop")
    open = 0
}

/^[0-9a-f]+ <.*>:$/ {
    ended()
    name = substr($2, 2, length($2) - 3)
    frame[name] = 0
    stepped = -1
    next
}
called && $2 != "R_X86_64_PLT32" { unread("a call of what has no name") }
{ called = 0 }
$2 == "R_X86_64_PLT32" {
    sub(/^\.text\./, "", $3)
    sub(/-0x4$/, "", $3)
    calls[name] = calls[name] " " $3
    next
}
$2 == "push" { frame[name] += 8 }
$2 == "call" { called = 1 }
$2 == "call" && $3 ~ /\*/ { unread("a call through a pointer") }
# The lines of such a loop follow one another: so the two before this one are kept.
{
    first = second
    second = third
    third = $2 " " $3
}
$2 == "sub" && $3 ~ /^\$0x[0-9a-f]+,%rsp$/ {
    ended()
    open = first == "mov %rsp,%r11" && second ~ /^sub \$0x[0-9a-f]+,%r11$/
    frame[name] += immediate(open ? substr(second, 5) : $3)
    stepped = hexadecimal(substr($1, 1, length($1) - 1))
    next
}
$2 ~ /^j/ && $3 ~ /^[0-9a-f]+$/ && hexadecimal($3) <= stepped {
    if (!open || $2 != "jne" || second != "cmp %r11,%rsp" || hexadecimal($3) != stepped)
        unread("a step down in a loop: " $0)
    open = 0
}
$2 !~ /^(add|cmp|test)/ && $NF ~ /,%[er]sp$/ { unread($0) }
END {
    ended()
    for (name in frame)
        if (name ~ /^corbastrigo_/)
            print name, deepest(name, 0)
    exit failed
}
