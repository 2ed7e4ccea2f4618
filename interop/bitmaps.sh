# Sourced by run.sh: persistent bitmaps. The core does not know them, so their
# clusters look leaked; it clears the autoclear bits before it stores anything,
# so that qemu knows that they no longer hold.

# An image with a bitmap and header_length 104, as qemu before 5.1 made it: the
# header extensions are moved from byte 112 to byte 104.
with_bitmap() { # FILE
    create "$1" 1M; fill "$1"
    qemu-img bitmap --add "$1" b
    qemu-io -f qcow2 -c 'write -P 0x22 300000 100000' "$1" > /dev/null
    pad "$1"; shorten "$1"
    dd if="$1" of=extensions bs=8 skip=14 count=100 status=none
    dd if=extensions of="$1" bs=8 seek=13 conv=notrunc status=none
}

copy() { # FILE: of b, with the same guest bytes as a raw file
    cp b "$1"; cp b.raw "$1.raw"
}

# offered, inconsistent (with qemu's warning) or none
bitmap() { # FILE
    qemu-img info "$1" > text 2>&1
    if grep -q '^ *name: b$' text; then echo offered
    elif grep -q 'all bitmaps are now considered inconsistent' text; then echo inconsistent
    else echo none; fi
}

# The autoclear bits, both checks, the bitmap, and the guest's bytes.
state() { # FILE
    local bits
    bits=$(($(field "$1" 88) | $(field "$1" 92)))
    echo "$bits; $(ours "$1"), $(theirs "$1"); $(bitmap "$1"); $(compare "$1" 2> /dev/null)"
}

untouched() { # WHAT EXIT COMMAND OPERANDS..: qstore leaves the file with a bitmap alone
    local what=$1 wanted=$2 command=$3 code=0; shift 3
    copy a
    "$QSTORE" "$command" a "$@" < /dev/null > /dev/null 2>&1 || code=$?
    expect "$what: exit code, file unchanged" "$code, $(cmp -s a b && echo yes || echo no)" "$wanted, yes"
}

echo "== Persistent bitmaps: autoclear bits; qstore's check, qemu's; the bitmap; guest bytes"
create a 1M; qemu-img bitmap --add a b
expect "as qemu 5.1 and later make it, padded" "$(pad a; ours a)" 'refused 6'
with_bitmap b
qemu-img convert -f qcow2 -O raw b b.raw
expect "with header_length 104" "$(state b)" '1; leaks 3, sound; offered; identical'
untouched "  a write of no byte" 0 write 5000
untouched "  a discard where nothing is" 0 discard 524288 65536
untouched "  a repair" 1 repair

copy a; both a 5000 1000
expect "a write" "$(state a)" '0; leaks 3, leaks 3; inconsistent; identical'
"$QSTORE" repair a > /dev/null
expect "  then a repair" "$(state a)" '0; sound, sound; inconsistent; identical'
both a 600000 300000
expect "  then a write to the clusters that were the bitmap's" "$(state a)" '0; sound, sound; inconsistent; identical'
qemu-io -f qcow2 -c 'write -P 0x33 0 1000' a > /dev/null 2>&1
qemu-io -f raw -c 'write -P 0x33 0 1000' a.raw > /dev/null
expect "  then a write by qemu: its check, the bitmap" "$(theirs a), $(bitmap a)" 'sound, none'
shorten a; pad a
expect "  header_length set back" "$(state a)" '0; sound, sound; none; identical'
qemu-img bitmap --add a b
expect "  then a new bitmap: qemu's check, the bitmap" "$(theirs a), $(bitmap a)" 'sound, offered'

copy a; head -c 1000 /dev/zero | "$QSTORE" write a 5000 --allowance 1 > /dev/null || true
expect "a write cut after its first unit" "$(state a)" '0; leaks 3, leaks 3; inconsistent; identical'
copy a; "$QSTORE" discard a 65536 65536 > /dev/null
dd if=/dev/zero of=a.raw bs=65536 seek=1 count=1 conv=notrunc status=none
expect "a discard" "$(state a)" '0; leaks 3, leaks 3; inconsistent; identical'
qemu-img check -q -r leaks a > /dev/null 2>&1
expect "  then qemu-img check -r leaks: its check, the bitmap" "$(theirs a), $(bitmap a)" 'sound, none'
shorten a; pad a
expect "  header_length set back" "$(state a)" '0; sound, sound; none; identical'
copy a; "$QSTORE" repair a --force > /dev/null
expect "a forced repair" "$(state a)" '0; sound, sound; inconsistent; identical'
copy a; qemu-img bitmap --remove a b
expect "the bitmap removed by qemu: its check, the bitmap" "$(theirs a), $(bitmap a)" 'sound, none'
shorten a
expect "  header_length set back" "$(state a)" '0; sound, sound; none; identical'
