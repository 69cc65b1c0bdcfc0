# Makes the tables of README.md's section on memory from what tools/memory measured, by lines of these forms; `part` says which, `lent` or `code`.
#
#   call NAME               a call of the header
#   stack NAME BYTES        how deep its painted stack went
#   frames NAME BYTES LAST  how deep the instructions say it goes, and how much of that is the last function's
#   vertices ROOM NODES COUNT   the most vertices of a tree in a room of nodes
#   code BYTES, constants BYTES, machine NAME
#
# It fails where the measurements don't agree with each other, or a print needs more than a printer has.

function fail(words) {
    print "tools/memory: " words >"/dev/stderr"
    exit 1
}

function grouped(n) {
    return n < 1000 ? n "" : grouped(int(n / 1000)) "," sprintf("%03d", n % 1000)
}

# A line of the table of what is lent, with the bytes for each room.
function lends(what, places, bytes) {
    printf "| %s | %s | %s | %s |\n", what, places, grouped(bytes[4096]), grouped(bytes[1024])
}

# So many places of a table, for each room.
function table(what, places, size, of_4096, of_1024) {
    bytes[4096] = size * of_4096
    bytes[1024] = size * of_1024
    if (part == "lent")
        lends(what, places, bytes)
    for (room in bytes)
        all[room] += bytes[room]
}

# A table in memory that was lent before for what isn't needed any more: it is among what is lent while reading, and adds to no other sum.
function lent_again(what, places, size, of_4096, of_1024) {
    bytes[4096] = size * of_4096
    bytes[1024] = size * of_1024
    if (part == "lent")
        lends(what, places, bytes)
    for (room in bytes)
        again[room] += bytes[room]
}

# What is lent so far goes into a sum.
function sum_up(sum) {
    for (room in all)
        sum[room] = all[room]
}

function line(what, n) {
    printf "| %s | %s |\n", what, grouped(n)
}

$1 == "call" { calls[++count] = $2 }
$1 == "stack" { painted[$2] = $3 }
$1 == "frames" { frames[$2] = $3; last[$2] = $4 }
$1 == "vertices" { nodes[$2] = $3; vertices[$2] = $4 }
$1 == "code" { code = $2 }
$1 == "constants" { constants = $2 }
$1 == "machine" { machine = $2 }

END {
    # The last function may leave its lowest places unwritten, and the paint there shows nothing; but it must have been reached.
    for (i = 1; i <= count; i++) {
        name = calls[i]
        if (!(name in painted))
            fail("tools/memory.c doesn't measure " name)
        if (!(name in frames))
            fail("there is no function " name " in the program")
        if (painted[name] < frames[name] && painted[name] <= frames[name] - last[name])
            fail(name " was painted " painted[name] " deep, and its frames are " frames[name] ": tools/memory.c doesn't lead it to its end")
        stack[name] = painted[name] > frames[name] ? painted[name] : frames[name]
        if (deepest < stack[name])
            deepest = stack[name]
    }
    # Every build splits the root and its children, which gives 27 vertices; each split after those nine adds at most 19.
    for (room in vertices)
        if (vertices[room] != 27 + 19 * ((nodes[room] - 1) / 8 - 9))
            fail("the tree of " nodes[room] " nodes has " vertices[room] " vertices, and not as many as a tree can have")

    if (part == "lent") {
        print "| A print lends | places | 4,096 nodes | 1,024 nodes |"
        print "|---|---|---:|---:|"
    }
    for (room in vertices) {
        leaves[room] = int((7 * room + 1) / 8)
        listed[room] = 19 * int((room - 1) / 8)
    }
    table("node keys", "n of 8 bytes", 8, 4096, 1024)
    table("node distances", "n of 4 bytes", 4, 4096, 1024)
    table("first children", "n of 2 bytes", 2, 4096, 1024)
    table("leaf keys", "(7n + 1)/8 of 8 bytes", 8, leaves[4096], leaves[1024])
    sum_up(tree)
    table("queue", "(7n + 1)/8 of 8 bytes", 8, leaves[4096], leaves[1024])
    table("state and request", "9 words; a key and four floats", 96, 1, 1)
    sum_up(building)
    table("vertices", "19s of 8 bytes, for s splits", 8, listed[4096], listed[1024])
    table("their levels", "as many of 1 byte", 1, listed[4096], listed[1024])
    table("a dual cell", "8 keys, 8 distances, 8 places, the number tried", 164, 1, 1)
    lent_again("first and last slabs of leaves", "2 x (7n + 1)/8 of 4 bytes, in the queue's memory", 8, leaves[4096], leaves[1024])
    table("leaves needed by slab", "4 bytes for each slab, here 1,024 of them, and the greatest", 4, 1024 + 1, 1024 + 1)
    for (room in all)
        reading[room] = tree[room] + all[room] - building[room] + again[room]
    if (part == "lent") {
        lends("while building", "the first six", building)
        lends("while reading", "all but queue, state and request", reading)
        lends("all at once", "nothing lent twice but the queue's memory", all)
        exit
    }

    program = code + constants
    whole = all[4096] + deepest + program
    print "| On " machine " | bytes |"
    print "|---|---:|"
    for (depth = deepest; depth >= 0; depth--) {
        names = ""
        for (i = 1; i <= count; i++)
            if (stack[calls[i]] == depth)
                names = names (names == "" ? "" : ", ") "`" substr(calls[i], length("mittenhelm_") + 1) "`"
        if (names != "")
            line("deepest stack of " names, depth)
    }
    line("code of the " count " calls", code)
    line("constants", constants)
    build_stack = stack["mittenhelm_distance"] > stack["mittenhelm_start"] ? stack["mittenhelm_distance"] : stack["mittenhelm_start"]
    line("a print of 4,096 nodes while building: tables, stack, code and constants", building[4096] + build_stack + program)
    line("while reading", reading[4096] + deepest + program)
    line("the whole of a print's calls, nothing lent twice but the queue's memory, of 262,144", whole)
    if (whole > 262144)
        fail("a print's calls need " whole " bytes, more than 256 KiB")
}
