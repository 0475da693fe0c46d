# The stack that each call of the C interface takes, from `objdump -dr --no-show-raw-insn` of the static library: for each function what it
# pushes and takes off the stack pointer, and for each call the deepest chain of functions, with a return address for each. A function that
# ends by a jump to another one leaves that one its place. A function that calls none may use 128 bytes below the stack pointer besides. What
# the C library's memset and memcpy take is not counted.
# Prints a line for each call, `NAME BYTES`. A call through a pointer, a function that is not there or a chain that comes back to itself is
# told instead, and the status is then 1.

# The number $0x.. on this line.
function number(   text, i, n) {
    match($0, /\$0x[0-9a-f]+/)
    text = substr($0, RSTART + 3, RLENGTH - 3)
    for (i = 1; i <= length(text); i++)
        n = n * 16 + index("0123456789abcdef", substr(text, i, 1)) - 1
    return n
}

function deepen(bytes) {
    depth += bytes
    if (depth > own[name])
        own[name] = depth
}

# The deepest chain from a function on.
function deepest(f,   i, d, most) {
    if (!(f in own))
        return fail(f " is not there")
    if (f in under_way)
        return fail(f " calls itself")
    under_way[f] = 1
    most = own[f] + (calls[f] == 0 ? 128 : 0)
    for (i = 1; i <= calls[f]; i++) {
        d = at[f, i] + (to[f, i] == "" ? 0 : 8 + deepest(to[f, i]))
        if (d > most)
            most = d
    }
    delete under_way[f]
    return most
}

function fail(what) {
    print what
    failed = 1
    return 0
}

/^[0-9a-f]+ <.*>:$/ {
    name = $0
    sub(/^[0-9a-f]+ </, "", name)
    sub(/>:$/, "", name)
    own[name] = depth = body = probed = calls[name] = jumped = 0
    next
}

# Where a call goes, or a jump out of the function, stands on the line behind it, by its section: .text and the name, .text.unlikely where it is cold.
/R_X86_64_(PLT32|PC32)/ {
    target = $NF
    sub(/-0x4$/, "", target)
    sub(/^\.text\.(unlikely\.)?/, "", target)
    if (jumped) {
        calls[name]++
        at[name, calls[name]] = depth - 8
        depth = body = before
    }
    if (pending || jumped)
        to[name, calls[name]] = target == "memset" || target == "memcpy" ? "" : target
    pending = jumped = 0
    next
}
{ jumped = 0 }

# A frame larger than a page is taken step by step, down to where %r11 says: the first step stands in the loop, and is no more of it.
/\tsub +\$0x[0-9a-f]+,%r11$/ && !calls[name] && depth == body {
    deepen(number())
    probed = 1
    body = depth
    next
}

/\tsub +\$0x[0-9a-f]+,%rsp$/ && probed { probed = 0; next }
/\tsub +\$0x[0-9a-f]+,%rsp$/ { deepen(number()) }
/\tadd +\$0x[0-9a-f]+,%rsp$/ { depth -= number(); next }
/\tpush +/ { deepen(8) }
/\tpop +/ { depth -= 8; next }
/\tret *$/ { depth = body; next }

/\tj[a-z]+ +[0-9a-f]+/ { jumped = 1; before = body }
/\tjmp +\*/ { fail(name " jumps through a pointer") }
/\tcall +\*/ { fail(name " calls through a pointer") }
/\tcall +[0-9a-f]+/ { calls[name]++; at[name, calls[name]] = depth; to[name, calls[name]] = "?"; pending = 1 }

# What is popped before a return is back where another path goes on.
{ body = depth }

END {
    for (f in own)
        if (f ~ /^vanplan_/)
            print f, deepest(f)
    exit failed
}
