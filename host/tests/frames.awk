# From a disassembly: the most stack that each moss_flash_ function can use. A function's frame is every push and every
# subtraction from the stack pointer in it, and the return address of its call. To that come 128 bytes that the last function
# of a chain may use below its frame, and 64 for the arguments that a caller passes on the stack and for the call of memcpy.
# Functions go by their address, since two may have one name.
/^[0-9a-f]+ <.*>:$/ {
    at = bare($1)
    title[at] = $2
    frame[at] = 8
    next
}
at == "" { next }
$2 ~ /^push/ { frame[at] += 8 }
$2 ~ /^sub/ && $3 ~ /^\$0x[0-9a-f]+,%rsp$/ { frame[at] += number($3) }
$2 ~ /^lea/ && $3 ~ /^-0x[0-9a-f]+\(%rsp\),%r11$/ { frame[at] += number($3) }
$2 ~ /^and/ && $3 ~ /,%rsp$/ { frame[at] += 64 }
$2 ~ /^(call|jmp)/ && $4 ~ /^<.*>$/ && $4 !~ /\+0x|@plt/ { calls[at] = calls[at] " " bare($3) }
$2 ~ /^call/ && $3 ~ /^\*/ { by_pointer[at] = 1 }

function bare(text) {
    sub(/^0+/, "", text)
    return text
}

function number(text, i, n) {
    sub(/^.*0x/, "", text)
    sub(/[^0-9a-f].*$/, "", text)
    n = 0
    for (i = 1; i <= length(text); i++)
        n = n * 16 + index("0123456789abcdef", substr(text, i, 1)) - 1
    return n
}

function depth(f, parts, count, i, most, d) {
    if (f in known)
        return known[f]
    if (by_pointer[f] || inside[f])
        odd = title[f]
    if (inside[f])
        return 0
    inside[f] = 1
    most = 0
    count = split(calls[f], parts, " ")
    for (i = 1; i <= count; i++)
        if (parts[i] != f && (d = depth(parts[i])) > most)
            most = d
    inside[f] = 0
    known[f] = frame[f] + most
    return known[f]
}

END {
    for (f in title)
        if (title[f] ~ /^<moss_flash_[a-z_0-9]*>:$/)
            printf "  %-26s %6d\n", substr(title[f], 2, length(title[f]) - 3), depth(f) + 128 + 64
    if (odd != "")
        print "  not a bound: recursion, or a call by pointer, in " odd
}
