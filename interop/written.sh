# Sourced by run.sh: what qemu thinks of images that qstore changed. Beside each
# image stands a raw file that gets the same bytes.

both() { # FILE OFFSET LENGTH: random bytes, by qstore and to the raw file
    head -c "$3" /dev/urandom > data
    "$QSTORE" write "$1" "$2" < data > /dev/null
    dd if=data of="$1.raw" bs=64k oflag=seek_bytes seek="$2" conv=notrunc status=none
}

compare() { # FILE
    qemu-img compare -q -f qcow2 -F raw "$1" "$1.raw" && echo identical || echo different
}

start() { # FILE SIZE ROOM OPTIONS: an image with ROOM free clusters
    create "$1" "$2" -o "$4"
    pad "$1"; shorten "$1"
    truncate -s "+$(($3 << $(field "$1" 20)))" "$1"
    rm -f "$1.raw"; truncate -s "$2" "$1.raw"
}

repaired() { # FILE: that leaks, by either
    cp "$1" mended; qemu-img check -q -f qcow2 -r leaks mended > /dev/null 2>&1
    "$QSTORE" repair "$1" > /dev/null
    expect "  repaired by qstore" "$(ours "$1"), $(theirs "$1")" 'sound, sound'
    expect "  repaired by qemu" "$(ours mended), $(theirs mended)" 'sound, sound'
}

# A command cut after some units: qemu finds the same leaks, the guest's bytes
# are the old ones, and after a repair by either all is sound.
cut() { # WHAT UNITS WANTED COMMAND OFFSET [LENGTH]
    local what=$1 units=$2 wanted=$3; shift 3
    local command=$1; shift
    cp w cut; cp w.raw cut.raw
    head -c 100 /dev/urandom | "$QSTORE" "$command" cut "$@" --allowance "$units" > /dev/null || true
    expect "$what cut after $units units: qstore, qemu" "$(ours cut), $(theirs cut)" "$wanted, $wanted"
    [ "$command" = write ] && expect "  the guest's bytes" "$(compare cut)" identical
    repaired cut
}

series() { # SIZE ROOM OPTIONS
    local c end=$(($1)) at
    echo "-- $3, disk of $1 bytes"
    start w "$1" "$2" "$3"
    c=$((1 << $(field w 20)))
    # Nothing is there yet: a write allots an L2 table and a cluster.
    for at in 1 $((c + 1)); do cut "new table: write" "$at" 'leaks 1' write $((c + 5)); done
    for at in $((c + 2)) $((2 * c + 2)) $((2 * c + 3)); do
        cut "new table: write" "$at" 'leaks 2' write $((c + 5))
    done
    for at in 0 $((c - 3)) $((3 * c + 7)) $((end / 2 - 100)) $((end - 300)); do
        both w "$at" $((c / 2 < 300 || end - at < c / 2 ? 300 : c / 2))
    done
    both w $((5 * c)) $((4 * c))
    expect "written by qstore: qemu's check, compare" "$(theirs w), $(compare w)" 'sound, identical'
    for at in 1 $((c + 1)); do cut "write" "$at" 'leaks 1' write $((20 * c)); done
    cut discard 1 'leaks 1' discard $((5 * c)) "$c"
    "$QSTORE" discard w $((6 * c)) $((2 * c)) > /dev/null
    dd if=/dev/zero of=w.raw bs=$c seek=6 count=2 conv=notrunc status=none
    expect "discarded by qstore" "$(theirs w), $(compare w)" 'sound, identical'
    qemu-io -f qcow2 -d unmap -c "discard $((5 * c)) $c" w > /dev/null
    dd if=/dev/zero of=w.raw bs=$c seek=5 count=1 conv=notrunc status=none
    expect "discarded by qemu" "$(ours w), $(compare w)" 'sound, identical'
    qemu-io -f qcow2 -c "write -P 0x55 $((2 * c)) $((3 * c))" w > /dev/null
    qemu-io -f raw -c "write -P 0x55 $((2 * c)) $((3 * c))" w.raw > /dev/null
    pad w
    both w $((c + 1)) $((2 * c))
    expect "written by qemu, then by qstore" "$(ours w), $(theirs w), $(compare w)" 'sound, sound, identical'
    expect "qstore reads what qemu reads" \
        "$("$QSTORE" read w 0 "$end" | cmp -s - w.raw && echo yes || echo no)" yes
}

echo "== What qemu says of images that qstore changed"
series 65536 60 compat=0.10,cluster_size=512
series 65536 60 compat=1.1,cluster_size=512
series 1048576 40 compat=1.1,cluster_size=4096
series 16777216 40 compat=0.10,cluster_size=65536
series 1073741824 40 compat=1.1,cluster_size=65536
series 134217728 40 compat=1.1,cluster_size=2M
# Counts of other widths. With 64 bits a block of 512 bytes counts 64 clusters.
for bits in 1 2 4 8 32 64; do
    series 65536 60 compat=1.1,cluster_size=512,refcount_bits=$bits
done
for bits in 1 4 64; do
    series 16777216 40 compat=1.1,cluster_size=65536,refcount_bits=$bits
done

echo "-- a leaked cluster with the largest count"
for bits in 1 2 4 8 16 32 64; do
    start w 65536 20 compat=1.1,cluster_size=512,refcount_bits=$bits
    block=$(field w $(($(field w 52) + 4)))
    # Cluster 16 has the lowest bits of its byte.
    case $bits in
        1) count='\001' ;;
        2) count='\003' ;;
        4) count='\017' ;;
        *) count=$(printf '\\377%.0s' $(seq $((bits / 8)))) ;;
    esac
    printf "$count" | dd of=w bs=1 seek=$((block + 16 * bits / 8)) conv=notrunc status=none
    expect "of $bits bits: qstore, qemu" "$(ours w), $(theirs w)" 'leaks 1, leaks 1'
    repaired w
done

echo "-- a preallocated image, and zero marks"
create w 1M -o preallocation=metadata,cluster_size=4096; pad w; shorten w
qemu-io -f qcow2 -c 'write -P 0x77 0 64k' -c 'write -z 8k 16k' w > /dev/null
qemu-img convert -f qcow2 -O raw w w.raw
both w 9000 5000; both w 500000 70000
expect "written by qstore" "$(ours w), $(theirs w), $(compare w)" 'sound, sound, identical'
