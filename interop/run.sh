#!/usr/bin/env bash
# qemu's images under qstore, and qstore's images under qemu.
#
#   interop/run.sh            needs qemu-img, qemu-io, qemu-nbd (qemu-utils) and qstore
#   QSTORE=/path/to/qstore interop/run.sh
#
# Prints a line for each comparison and ends with the number of those that were
# as expected. The numbers expected are those of qemu 7.2.
set -eu

here=$(cd "$(dirname "$0")" && pwd)
QSTORE=${QSTORE:-$here/../tool/target/release/qstore}
PROGRAM=$QSTORE # where QSTORE is a script over it
for need in "$QSTORE" qemu-img qemu-io qemu-nbd; do
    command -v "$need" > /dev/null || { echo "interop: no $need" >&2; exit 2; }
done
work=$(mktemp -d)
trap 'rm -rf "$work"' EXIT
cd "$work"
same=0 other=0

expect() { # WHAT GOT WANTED
    if [ "$2" = "$3" ]; then
        same=$((same + 1)); printf 'ok       %-58s %s\n' "$1" "$2"
    else
        other=$((other + 1)); printf 'DIFFERS  %-58s %s (expected %s)\n' "$1" "$2" "$3"
    fi
}

field() { # FILE OFFSET: a big-endian number of four bytes
    od -An -tu4 --endian=big -j"$2" -N4 "$1" | tr -d ' '
}

# sound, leaks N, damaged or refused N
verdict() { # JSON
    local text=$1
    case $text in
        *'"refused": '*) text=${text##*'"refused": '}; echo "refused ${text%%,*}" ;;
        *'"verdict": "leaks"'*) text=${text##*'"leaks": '}; echo "leaks ${text%%,*}" ;;
        *'"verdict": "damaged"'*) echo damaged ;;
        *'"verdict": "sound"'*) echo sound ;;
        *) echo "?" ;;
    esac
}

ours() { # FILE
    local text
    text=$("$QSTORE" check "$1" --json) || true
    verdict "$text"
}

# The same from qemu-img check.
theirs() { # FILE
    local text code=0
    text=$(qemu-img check -f qcow2 --output=json "$1" 2>/dev/null) || code=$?
    case $code in
        0) echo sound ;;
        2) echo damaged ;;
        3) text=${text##*'"leaks": '}; text=${text%%[!0-9]*}; echo "leaks $text" ;;
        *) echo "failed $code" ;;
    esac
}

create() { # FILE SIZE OPTIONS..
    local file=$1 size=$2; shift 2
    qemu-img create -q -f qcow2 "$@" "$file" "$size" > /dev/null
}

pad() { # FILE: to whole clusters
    truncate -s "%$((1 << $(field "$1" 20)))" "$1"
}

shorten() { # FILE: header_length 112 to 104; header extensions are hidden
    if [ "$(field "$1" 4)" = 3 ] && [ "$(field "$1" 100)" = 112 ]; then
        printf h | dd of="$1" bs=1 seek=103 conv=notrunc status=none
    fi
}

# As made, padded, and with header_length set back.
made() { # WHAT FILE WANTED
    local first second third
    first=$(ours "$2"); pad "$2"; second=$(ours "$2"); shorten "$2"; third=$(ours "$2")
    expect "$1" "$first; $second; $third" "$3"
}

fill() { # FILE: some guest bytes, by qemu
    qemu-io -f qcow2 -c 'write -P 0x11 5000 100000' "$1" > /dev/null
}

echo "== $(qemu-img --version | head -1), $("$QSTORE" --version)"
echo "== Images that qemu makes: as made; padded; header_length set back"
usual='refused 5; refused 6; sound'
whole='refused 6; refused 6; sound'
create a 1M; made "create" a "$usual"
create a 1M -o compat=0.10; made "create -o compat=0.10" a 'refused 5; sound; sound'
create a 1M -o compat=0.10; fill a; made "the same, written by qemu" a 'sound; sound; sound'
create a 1M; qemu-img amend -f qcow2 -o compat=0.10 a; made "amend -o compat=0.10" a 'refused 5; sound; sound'
create a 1M; fill a; made "create, written by qemu" a "$whole"
create a 64k -o cluster_size=512; made "-o cluster_size=512" a "$usual"
create a 1M -o preallocation=metadata; made "-o preallocation=metadata" a "$whole"
create a 1M -o preallocation=full; made "-o preallocation=full" a "$whole"
create a 1M -o lazy_refcounts=on; fill a; made "-o lazy_refcounts=on, closed" a "$whole"
create a 1T; made "1T, the largest disk" a "$usual"
create a 1M; qemu-img resize -q a 2G; made "resized" a "$usual"
create a 65537; expect "a disk of 65,537 bytes: its size" "$(field a 28)" 66048; made "  and then" a "$usual"
qemu-img resize -q a 131073 2> /dev/null && text=resized || text=refused
expect "  resized to 131,073 bytes, by qemu" "$text" refused
create a 1M; fill a; qemu-img snapshot -c s a; fill a; qemu-img snapshot -d s a
made "a snapshot made and deleted" a "$whole"
create a 1M; qemu-img snapshot -c s a; made "a snapshot" a "$usual"
create a 1M; fill a; qemu-img snapshot -c s a; fill a; made "  the same, written by qemu" a "$whole"
snapshots() { for k in $(seq "$2"); do qemu-img snapshot -c "s$k" "$1"; done; } # FILE COUNT
create a 1M; fill a; snapshots a 64; made "64 snapshots" a "$usual"
for size in 128k 2M; do
    create a 1M -o cluster_size=$size; made "-o cluster_size=$size" a "$usual"
done
create a 1T -o cluster_size=2M; made "1T with clusters of 2M" a "$usual"
create a 1M -o cluster_size=4M 2> /dev/null && text=made || text=refused
expect "-o cluster_size=4M, by qemu" "$text" refused
create a 1G -o preallocation=metadata
made "a file above 1,073,741,824 bytes" a 'refused 5; refused 5; refused 5'
for bits in 1 2 4 8 32 64; do
    create a 1M -o refcount_bits=$bits; made "-o refcount_bits=$bits" a "$usual"
    create a 1M -o refcount_bits=$bits; fill a; made "  written by qemu" a "$whole"
    create a 1M -o refcount_bits=$bits,cluster_size=512,preallocation=full
    made "  with clusters of 512 bytes, preallocated" a "$whole"
done
create a 1M -o refcount_bits=128 2> /dev/null && text=made || text=refused
expect "-o refcount_bits=128, by qemu" "$text" refused
create b 1M; create a 1M -b b -F qcow2; made "-b (backing file), none given" a 'refused 5; refused 6; refused 19'
# qemu measures the machine for it, and fails at times where that is busy.
for _ in $(seq 30); do
    create a 1M --object secret,id=s,data=x -o encrypt.format=luks,encrypt.key-secret=s 2> /dev/null && break
done
made "-o encrypt.format=luks" a 'refused 6; refused 6; refused 6'
create a 1M; snapshots a 65; made "65 snapshots" a 'refused 5; refused 6; refused 6'
create a 1M -o extended_l2=on; made "-o extended_l2=on" a 'refused 5; refused 6; refused 7'
create a 1M -o lazy_refcounts=on
bash -c "qemu-io -f qcow2 -c 'write 0 100k' -c abort a; true" > /dev/null 2>&1
made "-o lazy_refcounts=on, qemu killed" a 'refused 6; refused 6; refused 7'
create a 1M -o compression_type=zstd; made "-o compression_type=zstd" a 'refused 5; refused 6; refused 7'
create a 1M -o data_file=d; made "-o data_file=.." a 'refused 5; refused 6; refused 7'
create a $(((1 << 40) + 65536)); made "a disk above 2^40 bytes" a 'refused 5; refused 6; refused 8'
create a 136M -o cluster_size=512; made "136M with clusters of 512 bytes" a "$whole"
create a 2G -o cluster_size=512; made "2G with clusters of 512 bytes" a "$whole"
create a 2049M -o cluster_size=512
made "2049M with clusters of 512 bytes" a 'refused 6; refused 6; refused 8'
head -c 500000 /dev/zero | tr '\0' x > raw
qemu-img convert -f raw -O qcow2 -c raw a; expect "qemu-img check of convert -c" "$(theirs a)" sound
made "convert -c (compressed clusters)" a 'refused 5; refused 6; damaged'

. "$here/written.sh"
. "$here/snapshots.sh"
. "$here/longer.sh"
. "$here/bitmaps.sh"
. "$here/advice.sh"
. "$here/locks.sh"
. "$here/portions.sh"
. "$here/backing.sh"

echo "== $same as expected, $other otherwise"
[ "$other" = 0 ]
