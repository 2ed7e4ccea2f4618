# Sourced by run.sh: images of qemu that qstore extend makes longer. Beside each
# stands a raw file with the disk's bytes. qemu's check is content, without errors
# and leaks, and both go on writing.

# The checks, the disk, and the file's length.
grown() { # FILE
    echo "$(ours "$1"), $(theirs "$1"), $(compare "$1"), $(stat -c %s "$1")"
}

by_qemu() { # FILE OFFSET LENGTH BYTE: to the disk and to the raw file
    qemu-io -f qcow2 -c "write -P $4 $2 $3" "$1" > /dev/null
    qemu-io -f raw -c "write -P $4 $2 $3" "$1.raw" > /dev/null
}

# A run that is stopped: this core refuses the image, to qemu it is sound; the same
# command finishes the work, also after qemu has written to it.
stopped() { # UNITS BYTES: of l; the whole run is in the file whole
    local turn
    for turn in whole written; do
        cp l cut; cp l.raw cut.raw
        "$QSTORE" extend cut "$2" --allowance "$1" > /dev/null || true
        if [ $turn = whole ]; then
            expect "  stopped after $1 units: qstore, qemu, disk" "$(ours cut), $(theirs cut), $(compare cut)" 'refused 10, sound, identical'
            "$QSTORE" extend cut "$2" > /dev/null
            expect "    finished by the same command" "$(cmp -s cut whole && echo 'as without it')" 'as without it'
        else
            by_qemu cut 3000 20000 0x66
            "$QSTORE" extend cut "$2" > /dev/null
            expect "    the same after qemu wrote to it" "$(grown cut)" "sound, sound, identical, $2"
        fi
    done
}

longer() { # SIZE OPTIONS LENGTHS..
    local size=$1 options=$2 bytes text c; shift 2
    echo "-- $options, disk of $size bytes"
    create l "$size" -o "$options"; shorten l
    qemu-io -f qcow2 -c 'write -P 0x11 5000 20000' l > /dev/null
    qemu-img convert -f qcow2 -O raw l l.raw
    c=$((1 << $(field l 20)))
    for bytes in "$@"; do
        cp l whole; cp l.raw whole.raw
        text=$("$QSTORE" extend whole "$bytes" --json); text=${text##*'"blocks": '}; text=${text%%,*}
        expect "extended to $bytes bytes, $text new blocks" "$(grown whole)" "sound, sound, identical, $bytes"
        if [ "$text" -gt 0 ]; then
            for units in 1 $((c - 1)) $c; do stopped "$units" "$bytes"; done
        fi
        if [ "$text" -gt 1 ]; then stopped $((c + 1)) "$bytes"; stopped $((c + 5)) "$bytes"; fi
        mv whole l
    done
    both l 1000 30000
    expect "written by qstore" "$(grown l)" "sound, sound, identical, $bytes"
    # More at once than a new block counts has no room between two of them.
    by_qemu l $((size / 2)) 20000 0x55
    pad l; both l $((size / 2 + 20000)) 30000
    expect "written by qemu, then by qstore" "$(ours l), $(theirs l), $(compare l)" 'sound, sound, identical'
    rm -f l l.raw whole whole.raw cut cut.raw
}

echo "== Images of qemu that qstore makes longer"
longer 1048576 compat=0.10,cluster_size=512 262144 1048576
longer 1048576 compat=1.1,cluster_size=512,refcount_bits=64 131072 2097152
for bits in 1 2 4 8 32; do
    longer 1048576 compat=1.1,cluster_size=512,refcount_bits=$bits 4194304
done
longer 1048576 compat=1.1,cluster_size=2048,refcount_bits=64 2097152
longer 4194304 compat=1.1,cluster_size=4096 16777216 67108864
longer 16777216 compat=0.10,cluster_size=65536 134217728 1073741824
longer 16777216 compat=1.1,cluster_size=65536,refcount_bits=64 536936448
longer 67108864 compat=1.1,cluster_size=2M 1073741824

echo "-- beside snapshots, over a backing file, and a refcount table that is too short"
with_snapshots l 65536 compat=1.1,cluster_size=512; shorten l
qemu-img convert -f qcow2 -O raw l l.raw; raw_snapshots l
"$QSTORE" extend l 1M > /dev/null
expect "two snapshots" "$(beside l)" "$good"
head -c 300000 /dev/urandom > base.raw
create l 1M -o compat=0.10,cluster_size=512 -b base.raw -F raw
qemu-io -f qcow2 -c 'write -P 0x11 5000 20000' l > /dev/null; qemu-img convert -f qcow2 -O raw l l.raw
"$QSTORE" extend l 1M --backing base.raw > /dev/null
expect "a backing file" "$("$QSTORE" check l --backing base.raw), $(theirs l), $(compare l)" 'sound, sound, identical'
create l 1M -o cluster_size=512,refcount_bits=64; shorten l; cp l l.before
text=$("$QSTORE" extend l 4M 2>&1 || true)
expect "64 entries of the refcount table, and 4M" "$(grep -o 'refused ([0-9]*)' <<< "$text"), $(cmp -s l l.before && echo unchanged)" 'refused (9), unchanged'
rm -f l l.* base.raw
