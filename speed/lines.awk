# awk -v lines=N -f speed/lines.awk: so many lines for `portlist`: reads and writes of all registers, most of HSTDATA, a quarter of one
# byte, some refused, some past the end of memory. A longer text begins with the shorter one.
function any(n) {
    state = (state * 1103515245 + 12345) % 2147483648
    return int(state / 65536) % n
}

BEGIN {
    state = 12345
    for (i = 0; i < lines; i++) {
        kind = any(100)
        lanes = any(4) == 0 ? 1 + any(2) : 3
        if (kind < 35) printf "R 2 %d\n", lanes
        else if (kind < 65) printf "W 2 %d %04X\n", lanes, any(32768) * 2
        else if (kind < 75) printf "W 0 %d %04X\n", lanes, any(32768) * 2
        else if (kind < 83) printf "W 1 %d %04X\n", lanes, any(10)
        else if (kind < 88) printf "W 3 %d %04X\n", lanes, any(16) * 2048
        else if (kind < 96) printf "R %d %d\n", any(4), lanes
        else if (kind < 98) printf "R %d %d\n", 4 + any(6), lanes
        else printf "W %d %d %04X\n", any(4), any(2) * 4, any(30000)
    }
}
