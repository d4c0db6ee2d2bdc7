# Reads `objdump -dr` of the archive and prints, for each exported function, the bytes of stack that it can take at most: every push
# and every `sub` on the stack pointer in a function counts, whichever way control goes, with the return address of each call, along
# the deepest chain of calls. A large frame is taken in a loop, and counts as a whole. The last function of a chain may use the 128 bytes below its stack pointer as well (the red zone of the
# x86-64 calling convention), so they count whether it does or not. What the C library takes is not in it.
function number(digits,    i, value) {
    value = 0
    for (i = 1; i <= length(digits); i++) {
        value = 16 * value + index("0123456789abcdef", substr(digits, i, 1)) - 1
    }
    return value
}

function refuse(line) {
    print "stack: not measured in " name ": " line > "/dev/stderr"
    refused = 1
    exit 1
}

function deepest(name, chain,    callees, i, n, most, below) {
    if (index(chain, "|" name "|")) {
        print "stack: " name " calls itself" > "/dev/stderr"
        exit 1
    }
    most = RED_ZONE
    n = split(calls[name], callees, "\n")
    for (i = 1; i <= n; i++) {
        if (callees[i] != "" && callees[i] in own) {
            below = deepest(callees[i], chain "|" name "|")
            if (below > most) {
                most = below
            }
        }
    }
    return 8 + own[name] + most
}

BEGIN {
    RED_ZONE = 128
    PAGE = 4096
}

# The last five instructions, the one at hand being the first, and where they stand.
{
    for (i = 4; i > 0; i--) {
        code[i] = code[i - 1]
        at[i] = at[i - 1]
    }
    code[0] = $2 " " $3
    at[0] = $1
}

# A large frame is taken a step of at most a page at a time, each touched, down to a mark that lies so many steps below. The `sub` of one
# step is counted already.
code[0] == "cmp %r11,%rsp" && code[1] == "movq $0x0,(%rsp)" && code[2] ~ /^sub \$0x[0-9a-f]+,%rsp$/ && code[4] == "mov %rsp,%r11" &&
    code[3] ~ /^sub \$0x[0-9a-f]+,%r11$/ {
    step = number(substr(code[2], 8, length(code[2]) - 12))
    whole = number(substr(code[3], 8, length(code[3]) - 12))
    if (step == 0 || step > PAGE || whole == 0 || whole % step != 0) {
        refuse($0)
    }
    own[name] += whole - step
    page = at[2]
    next
}

page != "" {
    if (code[0] ":" != "jne " page) {
        refuse($0)
    }
    page = ""
}

# A call that names its function has a relocation on the next line; one without goes back into its own function.
call != "" {
    if (!/R_X86_64_/) {
        refuse(call)
    }
    call = ""
}

/^[0-9a-f]+ <.*>:$/ {
    name = $0
    sub(/^[0-9a-f]+ </, "", name)
    sub(/>:$/, "", name)
    own[name] = 0
    next
}

/[ \t]push / {
    own[name] += 8
}

/[ \t]sub +\$0x[0-9a-f]+,%rsp/ {
    match($0, /0x[0-9a-f]+,%rsp/)
    own[name] += number(substr($0, RSTART + 2, RLENGTH - 7))
    next
}

# What is given back: an `add` of at most eight digits.
/[ \t]add +\$0x[0-9a-f]+,%rsp/ && !/\$0x[0-9a-f][0-9a-f][0-9a-f][0-9a-f][0-9a-f][0-9a-f][0-9a-f][0-9a-f][0-9a-f]/ {
    next
}

# A stack pointer that is set in another way, and a call that names no function, are not measured.
(/,%rsp$/ || /[ \t](enter|leave)/ || /[ \t]call +\*/) {
    refuse($0)
}

/[ \t]call / {
    call = $0
}

# A jump by a table of the function's own, as a match compiles to, stays in the function.
/[ \t]jmp +\*/ {
    if (!(name in table)) {
        refuse($0)
    }
}

/R_X86_64_(PLT32|PC32|GOTPCREL)/ {
    callee = $NF
    sub(/[-+]0x[0-9a-f]+$/, "", callee)
    if (callee == ".rodata." name) {
        table[name] = 1
    }
    sub(/^\.text\./, "", callee)
    calls[name] = calls[name] callee "\n"
}

END {
    if (refused) {
        exit 1
    }
    if (call != "") {
        refuse(call)
    }
    for (name in own) {
        if (name ~ /^teakpool_/) {
            print deepest(name, ""), name
            measured++
        }
    }
    if (!measured) {
        print "stack: there is no function to measure" > "/dev/stderr"
        exit 1
    }
}
