# Reads 'objdump -dr --no-show-raw-insn' of the library and prints, for each function, the bytes that a call
# of it takes (return address, saved registers and frame, and what it uses below its frame) and the bytes of
# the deepest path from it. A function that calls itself does so for each digit of a number: at most `digits`
# times in all. A called function of the C library counts with its return address.

function hex(text, i, number) {
    number = 0
    for (i = 1; i <= length(text); i++)
        number = number * 16 + index("0123456789abcdef", substr(text, i, 1)) - 1
    return number
}

# The hexadecimal digits that follow a mark in a line.
function hex_after(line, mark) {
    sub(".*" mark, "", line)
    sub(/[^0-9a-f].*/, "", line)
    return hex(line)
}

function own(name) {
    return 8 + frame[name] + below[name]
}

function deepest(name, i, rest, most) {
    most = 0
    for (i = 1; i <= calls[name]; i++) {
        rest = deepest(callee[name, i])
        if (rest > most)
            most = rest
    }
    return own(name) * (repeats[name] ? digits : 1) + most
}

/^[0-9a-f]+ <.*>:$/ {
    at = $0
    sub(/^[0-9a-f]+ </, "", at)
    sub(/>:$/, "", at)
    names[++count] = at
}

/\tpush / { frame[at] += 8 }

/\tsub +\$0x[0-9a-f]+,%rsp/ { frame[at] += hex_after($0, "[$]0x") }

/-0x[0-9a-f]+\(%rsp/ {
    reach = hex_after($0, "-0x")
    if (reach > below[at])
        below[at] = reach
}

/\tcall / && index($0, "<" at ">") { repeats[at] = 1 }

/\t(call|jmp) +\*%/ { indirect = indirect " " at }

/R_X86_64_PLT32/ {
    name = $0
    sub(/.*R_X86_64_PLT32[ \t]+/, "", name)
    sub(/-0x4$/, "", name)
    sub(/^\.text\./, "", name)
    callee[at, ++calls[at]] = name
}

END {
    if (indirect != "") {
        print "frames: calls through a pointer in" indirect > "/dev/stderr"
        exit 1
    }
    for (i = 1; i <= count; i++)
        print own(names[i]), deepest(names[i]), names[i]
}
