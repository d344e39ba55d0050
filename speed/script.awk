# awk -v work=NAME -v count=N -f speed/script.awk: a script for the program `measured`, as octal escapes for printf. First it sows what
# the work reads, then it has the work so many times. `block read inside 256` is a block of 256 words, `field take 4 14` a field of 4
# bits at bit 14, and `field take` all 512 fields, of each size at each bit.
function number(n) {
    printf "\\%03o\\%03o\\%03o\\%03o", n % 256, int(n / 256) % 256, int(n / 65536) % 256, int(n / 16777216) % 256
}

function record(kind, a, b, c) {
    number(kind)
    number(a)
    number(b)
    number(c)
}

# Any sequence of words will do that has no two alike nearby.
function word(i) {
    return i * 40503 % 65536
}

function load_pointer(pointer) {
    record(1, 0, 3, pointer % 65536)
    record(1, 1, 3, int(pointer / 65536))
}

function accesses(i) {
    record(0, 0, 0, 0)
    record(1, 3, 3, 6144)
    load_pointer(0)
    for (i = 0; i < 700; i++) record(1, 2, 3, word(i))
    load_pointer(0)
    for (i = 0; i < count; i++) {
        if (work == "read word") record(0, 2, 3, 0)
        if (work == "read first byte") record(0, 2, 1, 0)
        if (work == "read closing byte") record(0, 2, 2, 0)
        if (work == "write word") record(1, 2, 3, word(i + 7))
        if (work == "write first byte") record(1, 2, 1, word(i + 7))
        if (work == "write closing byte") record(1, 2, 2, word(i + 7))
        if (work == "load pointer") load_pointer(16 * (i * 7 % 700))
        if (work == "read control") record(0, 3, 3, 0)
    }
}

function blocks(i, kind, pointer) {
    record(1, 0, 0, 0)
    for (i = 0; i < 200; i++) record(2, 0, i * 61, word(i))
    record(1, 16 * 256, 0, 4096)
    kind = part[2] == "read" ? 0 : 1
    pointer = 16 * (part[3] == "inside" ? 7 : 32768)
    for (i = 0; i < count; i++) record(kind, pointer, 0, part[4])
}

function field(kind, i, size, bit) {
    record(kind, 16 * (7 + i % 40) + bit, size, word(i) * 65536 + word(i + 9))
}

function fields(i, j, kind) {
    record(2, 0, 0, 0)
    for (i = 0; i < 60; i++) record(2, 32 * i, 32, word(i) * 65536 + word(i + 60))
    kind = part[2] == "take" ? 0 : part[2] == "take_signed" ? 1 : 2
    for (i = 0; i < count; i++) {
        if (parts == 4) field(kind, i, part[3], part[4])
        else for (j = 0; j < 512; j++) field(kind, j, int(j / 16) + 1, j % 16)
    }
}

BEGIN {
    parts = split(work, part, " ")
    if (part[1] == "block") blocks()
    else if (part[1] == "field") fields()
    else accesses()
}
