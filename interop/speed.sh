#!/usr/bin/env bash
# qstore's times beside qemu's, as the table of tool/README.md.
#
#   interop/speed.sh          needs qemu-img, qemu-io (qemu-utils), GNU time and qstore
#   QSTORE=/path/to/qstore RUNS=5 interop/speed.sh
#
# The images are made first, in a directory of its own, which takes half a minute and 2 GiB. Each command runs RUNS times in
# turn with the other; the least seconds of each count, and the peak memory of that run.
set -eu

here=$(cd "$(dirname "$0")" && pwd)
QSTORE=${QSTORE:-$here/../tool/target/release/qstore}
RUNS=${RUNS:-5}
work=$(mktemp -d)
trap 'rm -rf "$work"' EXIT
cd "$work"

v2() { # CLUSTER_SIZE: options for an image that qstore takes as it is
    echo "compat=0.10,cluster_size=$1"
}

# 400 MiB of data in clusters of 512 bytes: in order, and no two neighbours together.
head -c 400M /dev/urandom > raw
qemu-img convert -f raw -O qcow2 -o "$(v2 512)" raw full
qemu-img create -q -f qcow2 -o "$(v2 512)" scattered 400M
for start in 0 512; do
    qemu-img bench -q -w -d 1 -c 409600 -s 512 -S 1024 -o $start -t unsafe -f qcow2 scattered > /dev/null
done
qemu-img create -q -f qcow2 -o "$(v2 65536)" sparse 4G > /dev/null
truncate -s %512 full scattered
truncate -s 1G sparse
rm raw

# Runs a command; its seconds and its peak memory in MiB.
once() { # COMMAND
    command time -o figures -f '%e %M' bash -c "exec $1" > out 2> /dev/null < /dev/null
    awk '{ printf "%s %d\n", $1, $2 / 1024 }' figures
}

best() { # FILE: the line with the least seconds
    sort -n "$1" | head -1
}

row() { # WHAT OURS THEIRS
    rm -f ours theirs
    for _ in $(seq "$RUNS"); do
        once "$2" >> ours
        once "$3" >> theirs
    done
    read -r seconds memory < <(best ours)
    read -r their_seconds their_memory < <(best theirs)
    echo "| $1 | $seconds s, $memory MiB | $their_seconds s, $their_memory MiB |"
}

echo "$(qemu-img --version | head -1), $("$QSTORE" --version); the least of $RUNS runs each, with its peak memory"
echo
echo "| | qstore | qemu |"
echo "|---|---|---|"
row "check of 819,200 clusters" "'$QSTORE' check full" "qemu-img check -f qcow2 full"
row "the same, scattered" "'$QSTORE' check scattered" "qemu-img check -f qcow2 scattered"
row "map of 819,200 clusters in 12,800 runs" "'$QSTORE' map full" "qemu-img map -f qcow2 full"
row "map of 819,200 clusters, each a run" "'$QSTORE' map scattered" "qemu-img map -f qcow2 scattered"
row "400 MiB of guest bytes to a file" "'$QSTORE' read full 0 400M" "qemu-img convert -f qcow2 -O raw full copy"
row "the same, scattered" "'$QSTORE' read scattered 0 400M" "qemu-img convert -f qcow2 -O raw scattered copy"
printf x > byte
row "a byte written to a sparse file of 1 GiB" "'$QSTORE' write sparse 0 < byte" "qemu-io -f qcow2 -c 'write -q 1G 1' sparse"
