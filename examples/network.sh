#!/usr/bin/env bash
# Starts and stops a network of a process a mote (`deluge_node`), from a profile. Say where its chips lie: mote K has the file mK of
# the folder in which this is called.
#
#     network.sh start PROFILE [K..]    starts the motes that are named, or all
#     network.sh stop PROFILE [K..]     ends them, and waits until they are gone
#     network.sh kill PROFILE [K..]     the same by `kill -9`
#     network.sh wait PROFILE [K..]     waits until they ended by themselves, where TURNS is set
#     network.sh until PROFILE LINE [K..]  waits until the chip of each has this line of `deluge ping`, as 'program 1 2', and its short
#                                       start is cleared, and writes the line; ten minutes at most
#     network.sh show PROFILE           tells of each mote whether it runs, and what its chip keeps
#
# A run of mote K, of which this is the Nth, leaves mK.N.trace, mK.N.said (standard error), mK.N.before (the chip before it) and,
# where it ended by itself, mK.N.status. SCALE is `--scale` (1 where it is not set), TURNS is `--turns`, and SEED is added to each
# seed. The program is `deluge_node` of the PATH.
set -euo pipefail

usage() {
    sed -n 's/^#     network/    network/p' "$0" >&2
    exit 2
}

[[ $# -ge 2 ]] || usage
verb=$1
profile=$2
shift 2
motes=$(sed -n 's/^motes *= *\([0-9]*\).*/\1/p' "$profile")
[[ $motes ]] || { echo "network.sh: $profile: no line tells motes" >&2; exit 3; }
line=
if [[ $verb == until ]]; then line=${1:?a line of deluge ping is wanted}; shift; fi
named=("$@")
[[ $# -gt 0 ]] || mapfile -t named < <(seq 0 $((motes - 1)))

# The number of the last run of a mote, 0 where there is none.
last_run() {
    local n=0
    while [[ -e m$1.$((n + 1)).before ]]; do n=$((n + 1)); done
    echo "$n"
}

runs() {
    [[ -e m$1.pid ]] && kill -0 "$(cat "m$1.pid")" 2>/dev/null
}

start() {
    local n words
    if runs "$1"; then echo "network.sh: mote $1 runs" >&2; return; fi
    n=$(($(last_run "$1") + 1))
    cp "m$1" "m$1.$n.before"
    words=(--id "$1" --seed $((${SEED:-0} + 16 * n + $1)) --scale "${SCALE:-1}")
    [[ -z ${TURNS:-} ]] || words+=(--turns "$TURNS")
    (
        deluge_node "${words[@]}" "m$1" <"$profile" >"m$1.$n.trace" 2>"m$1.$n.said" &
        echo $! >"m$1.pid"
        if wait $!; then echo 0; else echo $?; fi >"m$1.$n.ended"
        mv "m$1.$n.ended" "m$1.$n.status"
    ) </dev/null >/dev/null 2>&1 &
    until [[ -s m$1.pid ]]; do sleep 0.01; done
}

gone() {
    while runs "$1"; do sleep 0.02; done
    rm -f "m$1.pid"
}

end() {
    ! runs "$1" || kill "-$2" "$(cat "m$1.pid")" 2>/dev/null || true
    gone "$1"
}

show() {
    local state=stopped
    if runs "$1"; then state=runs; fi
    cp "m$1" "m$1.now"
    echo "mote $1 $state: $(deluge ping "m$1.now" 2>/dev/null | tr '\n' ';')"
    rm -f "m$1.now"
}

# Looks into a copy: the chip itself is held by its node.
has_line() {
    cp "m$1" "m$1.now"
    deluge ping "m$1.now" >"m$1.told" 2>/dev/null && grep -q "^$line\$" "m$1.told" && grep -q '^gesture 0$' "m$1.told"
}

come_to() {
    local _
    for _ in $(seq 3000); do
        if has_line "$1"; then rm -f "m$1.now" "m$1.told"; return; fi
        sleep 0.2
    done
    echo "network.sh: mote $1 did not come to $line" >&2
    exit 1
}

for k in "${named[@]}"; do
    case $verb in
        start) start "$k" ;;
        stop) end "$k" TERM ;;
        kill) end "$k" KILL ;;
        wait) gone "$k" ;;
        until) come_to "$k" ;;
        show) show "$k" ;;
        *) usage ;;
    esac
done
[[ $verb != until ]] || echo "$line"
