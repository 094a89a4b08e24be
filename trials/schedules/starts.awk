# Tests each start of a report against the table: `awk -f starts.awk table report`. What starts is golden, or a version of
# an image that its mote was told to keep whole and to start; and its content is the one of the table.
FNR == NR { content[$1, $2] = $3 " " $6; pages[$1, $2] = $5; next }
$1 == "have" && $5 == pages[$3, $4 % 2] { whole[$2, $3, $4]++ }
$1 == "order" { ordered[$2, $4, $5]++ }
$1 == "off" { cuts++ }
$1 == "start" { starts++; golden += $3 == 0 }
$1 == "start" && content[$3, $4 % 2] != $5 " " $6 { print "another content: " $0; wrong++ }
$1 == "start" && $3 " " $4 != "0 1" && !(whole[$2, $3, $4] && ordered[$2, $3, $4]) { print "not whole or not ordered: " $0; wrong++ }
$1 == "end" { events = $2 }
END {
    print "events " events ", cuts " cuts ", starts " starts ", of golden " golden ", wrong " wrong + 0
    exit wrong || starts < events / 100
}
