# Sourced by run.sh: images over a raw backing file, made by qemu and read over the
# same file; changed by qstore and judged by qemu; and the other way round. The
# backing file stays as it is.

# qstore with the backing file given; the other scripts' functions then use it too.
qstore=$QSTORE
cat > over <<'END'
#!/bin/sh
exec "$REAL" "$@" --backing "$BASE"
END
chmod +x over
export REAL=$qstore BASE=$work/base.raw
QSTORE=$work/over

# header_length 112 to 104, with the extensions still seen: qemu would guess the
# backing file's format else.
shorten_seen() { # FILE
    if [ "$(field "$1" 4)" = 3 ] && [ "$(field "$1" 100)" = 112 ]; then
        printf 'hh\003\370W' | dd of="$1" bs=1 seek=103 conv=notrunc status=none
    fi
}

fit() { # FILE CLUSTERS: accepted, with so many free clusters
    pad "$1"; shorten_seen "$1"
    truncate -s "+$(($2 << $(field "$1" 20)))" "$1"
}

base() { # BYTES: a backing file of this length
    head -c "$1" /dev/urandom > base.raw; cp base.raw base.before
}

# Written, marked as zeros and discarded by qemu; what qemu reads of it.
written_by_qemu() { # FILE
    local c
    c=$((1 << $(field "$1" 20)))
    qemu-io -f qcow2 -d unmap -c "write -P 0x11 1000 700" -c "write -P 0x22 $((8 * c)) $((3 * c))" \
        -c "write -z $((13 * c)) $((2 * c))" -c "discard $((9 * c)) $c" "$1" > /dev/null
    qemu-img convert -f qcow2 -O raw "$1" "$1.raw"
}

reads() { # FILE: does qstore read what stands in FILE.raw?
    "$QSTORE" read "$1" 0 "$(stat -c %s "$1.raw")" 2> /dev/null | cmp -s - "$1.raw" && echo yes || echo no
}

# Both checks, the disk by qemu, the disk by qstore.
all() { # FILE
    echo "$(ours "$1"), $(theirs "$1"), $(compare "$1"), $(reads "$1")"
}
fine='sound, sound, identical, yes'

zeros() { # FILE OFFSET LENGTH: in the raw file beside it
    dd if=/dev/zero of="$1.raw" bs=512 seek=$(($2 / 512)) count=$(($3 / 512)) conv=notrunc status=none
}

refused() { # WHAT NUMBER FILE COMMAND..: the file is left alone
    local what=$1 number=$2 file=$3 text; shift 3
    cp "$file" "$file.before"
    text=$("$QSTORE" "$@" < data 2>&1 || true)
    text=$(grep -o 'refused ([0-9]*)' <<< "$text" | head -1 || true)
    expect "$what" "$text, $(cmp -s "$file" "$file.before" && echo unchanged || echo changed)" \
        "refused ($number), unchanged"
}

discards() { # CLUSTER: of the image w
    local c=$1
    if [ "$(field w 4)" = 2 ]; then
        refused "a discard in version 2" 20 w discard w $((8 * c)) "$c"
        refused "  where nothing is" 20 w discard w $((20 * c)) "$c"
        return
    fi
    cut discard 1 'leaks 1' discard $((10 * c)) "$c"
    # Data, a zero mark, and what is not allocated.
    "$QSTORE" discard w $((8 * c)) $((12 * c)) > /dev/null; zeros w $((8 * c)) $((12 * c))
    expect "discarded by qstore" "$(all w)" "$fine"
    "$QSTORE" discard w $((8 * c)) $((12 * c)) | grep -q ': 0 units' && text=nothing || text=more
    expect "  again: what is stored" "$text" nothing
}

# qemu goes on: it copies on write, marks and discards.
then_by_qemu() { # CLUSTER
    local c=$1 io
    for io in "write -P 0x66 $((25 * c + 3)) 100" "write -z $((27 * c)) $c" "write -P 0x67 $((9 * c)) 50"; do
        qemu-io -f qcow2 -c "$io" w > /dev/null; qemu-io -f raw -c "$io" w.raw > /dev/null
    done
    qemu-io -f qcow2 -d unmap -c "discard $((10 * c)) $c" w > /dev/null
    # What qemu leaves there is its own affair, in version 2 above all.
    qemu-img convert -f qcow2 -O raw w w.raw
    fit w 4
    expect "then by qemu" "$(all w)" "$fine"
    both w $((25 * c + 50)) 100; both w $((27 * c + 5)) 20
    expect "  and by qstore again" "$(all w)" "$fine"
}

snapshot() { # CLUSTER: of the image w
    local c=$1
    qemu-img snapshot -c s w; qemu-io -f qcow2 -c "write -P 0x77 0 $((3 * c))" w > /dev/null
    qemu-img convert -f qcow2 -O raw -l snapshot.name=s w s.raw; qemu-img convert -f qcow2 -O raw w w.raw
    fit w 6
    expect "a snapshot by qemu" "$(all w)" "$fine"
    "$QSTORE" read w 0 "$(stat -c %s s.raw)" --snapshot s | cmp -s - s.raw && text=yes || text=no
    expect "  read by qstore" "$text" yes
    both w $((c + 7)) 100; both w $((28 * c + 1)) 100
    expect "  then writes beside it" "$(all w)" "$fine"
    "$QSTORE" read w 0 "$(stat -c %s s.raw)" --snapshot s | cmp -s - s.raw && text=yes || text=no
    qemu-img convert -f qcow2 -O raw -l snapshot.name=s w now
    expect "  and it is as it was" "$text, $(cmp -s now s.raw && echo yes)" 'yes, yes'
    qemu-img snapshot -d s w; fit w 0
    expect "  deleted by qemu" "$(all w)" "$fine"
}

over_kind() { # OPTIONS SIZE BASE
    local c at
    echo "-- $1, disk of $2 bytes, backing file of $3"
    rm -f w w.* cut cut.*; base "$3"
    create w "$2" -o "$1" -b base.raw -F raw
    c=$((1 << $(field w 20)))
    written_by_qemu w; fit w 40
    expect "as qemu made it: checks, disk by qemu, by qstore" "$(all w)" "$fine"
    cut "write" 1 'leaks 1' write $((20 * c + 5)); cut "write" $((c + 1)) 'leaks 1' write $((20 * c + 5))
    for at in 0 1010 $((c - 3)) $((13 * c + 9)) $((17 * c + 100)) $(($2 / 2 - 50)) $(($2 - 300)); do both w "$at" 300; done
    both w $((21 * c + 1)) $((2 * c))
    expect "written by qstore" "$(all w)" "$fine"
    portioned "  in portions" w sound
    discards "$c"
    then_by_qemu "$c"
    snapshot "$c"
    expect "the backing file" "$(cmp -s base.raw base.before && echo unchanged)" unchanged
}

echo "== Over a backing file: qstore's check, qemu's; the disk by qemu, by qstore"
for options in compat=0.10 compat=1.1; do
    for kind in '512 65536' '4096 1048576' '65536 16777216'; do
        read -r c size <<< "$kind"
        for length in $((size * 5 / 8 + 37)) "$size" $((size + 12345)) 1; do
            over_kind "$options,cluster_size=$c" "$size" "$length"
        done
    done
done
over_kind compat=1.1,cluster_size=4096,refcount_bits=2 1048576 700000
over_kind compat=1.1,cluster_size=512,refcount_bits=64 65536 40000

echo "-- what stands in the image, and what is given"
base 1048576; rm -f a a.raw
create a 1M -b base.raw -F raw; made "create -b base.raw" a 'refused 5; refused 6; sound'
create a 1M -o compat=0.10 -b base.raw -F raw; made "  -o compat=0.10" a 'refused 5; sound; sound'
create a 1M -o compat=0.10 -b base.raw -F raw; fill a; fit a 4
QSTORE=$qstore
expect "without --backing" "$(ours a)" 'refused 19'
: > empty; expect "  with an empty one" "$(BASE=$work/empty "$work/over" check a 2>&1 | grep -o 'refused (19).*has no bytes')" \
    "refused (19): the backing file that is given, \"$work/empty\", has no bytes"
expect "  with the image itself" "$(BASE=$work/a "$work/over" check a 2>&1 | grep -o 'it is the image itself')" 'it is the image itself'
QSTORE=$work/over
qemu-img convert -f qcow2 -O raw a a.raw
qemu-img rebase -u -f qcow2 -b missing.raw -F raw a
expect "the image names a file that is not there" "$(ours a), $(reads a)" 'sound, yes'
mkfifo waits; qemu-img rebase -u -f qcow2 -b waits -F raw a
expect "  a FIFO, which nobody opens" "$(timeout 20 "$QSTORE" check a), $(reads a)" 'sound, yes'
qemu-img rebase -u -f qcow2 -b "$(printf 'x\033[2J\nverdict: damaged')" -F raw a
expect "  an odd name" "$("$QSTORE" info a | grep '^backing file: ')" 'backing file: "x\u{1b}[2J\nverdict: damaged"'
expect "    as JSON" "$("$QSTORE" info a --json | grep -o '"backing_file": "[^"]*"')" '"backing_file": "x\u001b[2J\nverdict: damaged"'
long=$(head -c 1023 /dev/zero | tr '\0' n); qemu-img rebase -u -f qcow2 -b "$long" -F raw a
expect "  of 1,023 bytes" "$("$QSTORE" info a | sed -n 's/^backing file: "\(n*\)"$/\1/p' | tr -d '\n' | wc -c)" 1023
qemu-img rebase -u -f qcow2 -b base.raw -F raw a
expect "  and back" "$(all a)" "$fine"

# Another format than raw.
qemu-img convert -f raw -O qcow2 base.raw base.qcow2; rm -f a
create a 1M -o compat=0.10 -b base.qcow2 -F qcow2; fill a; fit a 4; qemu-img convert -f qcow2 -O raw a a.raw
expect "over a qcow2 file, which is given" "$(BASE=$work/base.qcow2 "$QSTORE" check a 2>&1 | grep -o 'begins as an image of the format qcow2')" \
    'begins as an image of the format qcow2'
expect "  a raw disk of it is given" "$(ours a), $(reads a)" 'sound, yes'
expect "    with a note" "$("$QSTORE" check a 2>&1 | grep -o 'has the format "qcow2"')" 'has the format "qcow2"'

. "$here/backing_advice.sh"
. "$here/backing_locks.sh"
QSTORE=$qstore
