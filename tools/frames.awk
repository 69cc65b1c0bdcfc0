# Reads what `objdump -d` prints of a linked program. For each function it prints `frames NAME BYTES LAST`: how deep its stack goes by the
# instructions that move the stack pointer, its return address and the functions that it calls among them, and the frame of the last of those. A
# function that calls itself is taken to do so once for each level above the limit, of which there are `levels`. A call itself puts down `on_entry`
# bytes, 8 on x86-64 and 0 on Arm. Functions go by their addresses, since two objects may each have their own of one name.

function digits(word) {
    gsub(/[^0-9a-fx-]/, "", word)
    sub(/^-/, "", word)
    return word ~ /^0x/ ? from_hex(substr(word, 3)) : word + 0
}

function from_hex(word, n, i) {
    n = 0
    for (i = 1; i <= length(word); i++)
        n = 16 * n + index("0123456789abcdef", substr(word, i, 1)) - 1
    return n
}

function deepen(bytes) {
    depth += bytes
    if (frame[at] < depth)
        frame[at] = depth
}

# How deep the stack of a function goes; `last` is then the frame of the last function on the way.
function total(at, most, i, below, deepest_last) {
    most = 0
    deepest_last = frame[at]
    for (i = 1; i <= calls[at]; i++) {
        below = total(callee[at, i])
        if (below > most) {
            most = below
            deepest_last = last
        }
    }
    last = deepest_last
    return frame[at] * (at in recursive ? levels : 1) + most
}

function address(word) {
    sub(/^0+/, "", word)
    return word
}

/^[0-9a-f]+ <.*>:$/ {
    at = address($1)
    places[++count] = at
    names[count] = substr($2, 2, length($2) - 3)
    depth = frame[at] = on_entry
    below_prologue = 0
    next
}

# The name alone, without a place in it: a call, or a jump in place of one.
$2 ~ /^(call|bl|jmp|b)$/ && $NF ~ /^<[^+]+>$/ {
    called = address($(NF - 1))
    if (called != at)
        callee[at, ++calls[at]] = called
    else if ($2 ~ /^(call|bl)$/)
        recursive[at] = 1
}

# x86-64: registers are kept, places are made, and arguments are put down before a call and taken off behind it.
$2 == "push" { deepen(8) }
$2 == "sub" && $3 ~ /^\$.*,%rsp$/ {
    split($3, part, ",")
    deepen(digits(part[1]))
    below_prologue = depth
}
$2 == "add" && $3 ~ /^\$.*,%rsp$/ {
    split($3, part, ",")
    depth -= digits(part[1])
    if (depth < below_prologue)
        depth = below_prologue
}

# Arm: `sub sp, sp, #N`, or a store that moves the pointer first.
$2 == "sub" && $3 == "sp," && $4 == "sp," { deepen(digits($5)) }
$2 ~ /^(stp|str)$/ && /\[sp, #-[0-9a-fx]+\]!/ {
    match($0, /#-[0-9a-fx]+\]!/)
    deepen(digits(substr($0, RSTART + 1, RLENGTH - 3)))
}

END {
    for (i = 1; i <= count; i++)
        if (names[i] ~ /^mittenhelm_/) {
            bytes = total(places[i])
            print "frames", names[i], bytes, last
        }
}
