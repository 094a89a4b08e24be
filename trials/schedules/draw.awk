# Draws a script of 16 motes in a ring: `awk -v seed=S -v events=N -f draw.awk table frames`. A line of the table tells an
# image, 1 for its odd versions and 0 for its even ones, the length and the seed of its content, its pages and the CRC; a
# line of frames is a frame that nobody sent.
function below(n) { x = x * 16807 % 2147483647; return int(x / 2147483647 * n) }
function draw() { return below(4) ? below(1000) : sprintf("%.0f", below(65536) * 65536 + below(65536)) }
function hex(n, digits) { for (digits = ""; n > 0; n--) digits = digits sprintf("%02x", below(256)); return digits }
function beside(m) { return (m + (below(2) ? 1 : 15)) % 16 }
function wait() { return below(20) " " draw() }
function declare(i) { version[i]++; print "image " i " " version[i] " drawn gen:" content[i, version[i] % 2] }
function row(i) { i = 1 + below(6); return i " " version[i] - (version[i] > 1 && below(4) == 0) }
FNR == NR { content[$1, $2] = $3 ":" $4; next }
{ frames[known++] = $1 }
END {
    x = seed * 2 + 1
    for (i = 0; i < 9; i++) below(2)
    print "motes 16\ngolden base 31 hex:41"
    for (m = 0; m < 16; m++) print "link " m " " (m + 1) % 16
    for (m = 0; m < 16; m++) if (below(3) == 0) print "narrow " m
    for (i = 1; i <= 6; i++) declare(i)
    for (played = 0; played < events; played++) {
        m = below(16)
        kind = below(1000)
        if (below(400) == 0) declare(1 + below(6))
        if (kind < 6 && events - played >= 202) { print "round " m " " beside(m); played += 201; continue }
        if (below(kind < 880 ? 40 : 3) == 0) print "cut " 1 + below(kind < 880 ? 3 : kind < 920 ? 160 : 26) " " hex(1 + below(3))
        if (kind < 500) print "tick " m " " below(below(3) ? 400 : 6000) " " draw()
        else if (kind < 780) print "last " m " " beside(m) " " wait()
        else if (kind < 840) print "hear " m " " wait() " " 1 + below(1 + int(played / 3))
        else if (kind < 860) print "frame " m " " wait() " hex:" frames[below(known)]
        else if (kind < 870) print "frame " m " " wait() " hex:" hex(below(65))
        else if (kind < 920) print "inject " m " " row() " " wait()
        else if (kind < 940) print "order " m " " 1 + int(played / 20) + below(20) " " row() " " wait()
        else print "reset " m " " wait()
    }
}
