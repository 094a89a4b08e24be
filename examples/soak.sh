#!/usr/bin/env bash
# Rehearses one update with many seeds, in parallel, and tells the median and the worst.
#
#   examples/soak.sh SEEDS PROFILE IMAGE.hex [OPTIONS OF deluge_rehearse]
#   examples/soak.sh 1000 examples/five.toml blink.hex --loss 20 --cuts 3
#
# Each run prints a line: seed, seconds of the schedule, frames sent, status. `deluge` and `deluge_rehearse` are looked for on
# the path. With GNU parallel the runs are spread over the processors (add `--sshloginfile FILE` to PARALLEL for several
# machines), without it `xargs -P` does the same on this one.
set -euo pipefail
[ $# -ge 3 ] || { sed -n '2,8s/^# \{0,1\}//p' "$0" >&2; exit 2; }
seeds=$1 profile=$2 image=$3
shift 3
export SOAK_PROFILE=$profile SOAK_IMAGE=$image SOAK_OPTIONS="--image 1 --ver 1 --name soak $*"

one() {
    local script told status=0 seconds frames
    script=$(mktemp)
    told=$(deluge_rehearse --seed "$1" $SOAK_OPTIONS "$SOAK_PROFILE" <"$SOAK_IMAGE" 2>&1 >"$script") || status=$?
    seconds=$(sed -nE 's/.* ([0-9]+) min ([0-9]+) s$/\1 \2/p' <<<"$told" | awk '{ print $1 * 60 + $2 }')
    frames=$(deluge replay <"$script" | grep -c '^sent ' || true)
    rm -f "$script"
    echo "$1 ${seconds:--} $frames $status"
}
export -f one

lines=$(mktemp)
if command -v parallel >/dev/null; then
    seq 0 $((seeds - 1)) | SHELL=$(command -v bash) parallel one {} >"$lines"
else
    seq 0 $((seeds - 1)) | xargs -P "$(nproc)" -I{} bash -c 'one {}' >"$lines"
fi
sort -n "$lines"
done=$(awk '$4 == 0' "$lines" | wc -l)
echo "runs $seeds complete $done"
[ "$done" -gt 0 ] || exit 1
awk '$4 == 0' "$lines" | sort -n -k2 | awk '{ s[NR] = $1; t[NR] = $2; f[NR] = $3 }
    END { m = int((NR + 1) / 2)
          printf "median seconds %d frames %d\n", t[m], f[m]
          printf "worst seconds %d frames %d seed %d\n", t[NR], f[NR], s[NR] }'
worst=$(awk '$4 == 0' "$lines" | sort -n -k2 | tail -1 | cut -d' ' -f1)
echo "again: deluge_rehearse --seed $worst $SOAK_OPTIONS $profile <$image | deluge replay | deluge_picture >worst.svg"
rm -f "$lines"
