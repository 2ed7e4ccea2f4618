# Sourced by run.sh: images with snapshots that qemu made. Each snapshot is read
# as qemu reads it, before and after writes beside it; what it holds is refused
# with 22 and left alone; and qemu can go on with what qstore changed.

# The options, the disk's size, and free clusters to append.
kinds_of_images() {
    echo 'compat=0.10,cluster_size=512 65536 40'
    echo 'compat=1.1,cluster_size=512 65536 40'
    echo 'compat=1.1,cluster_size=512,refcount_bits=2 65536 40'
    echo 'compat=1.1,cluster_size=512,refcount_bits=64 65536 20'
    echo 'compat=1.1,cluster_size=2048,refcount_bits=64 1048576 20'
    echo 'compat=1.1,cluster_size=4096,refcount_bits=2 1048576 30'
    echo 'compat=1.1,cluster_size=4096 1048576 30'
    echo 'compat=0.10,cluster_size=65536 16777216 20'
    echo 'compat=1.1,cluster_size=65536,refcount_bits=8 16777216 20'
    echo 'compat=1.1,cluster_size=2M 67108864 10'
}

room() { # FILE CLUSTERS: whole clusters, header_length 104, and so many free clusters
    pad "$1"; shorten "$1"
    truncate -s "+$(($2 << $(field "$1" 20)))" "$1"
}

# Two snapshots, with other bytes of the disk before, between and after them.
with_snapshots() { # FILE SIZE OPTIONS
    local c
    create "$1" "$2" -o "$3"
    c=$((1 << $(field "$1" 20)))
    qemu-io -f qcow2 -c "write -P 0x11 0 $((4 * c))" -c "write -P 0x22 $((8 * c + 5)) 300" "$1" > /dev/null
    qemu-img snapshot -c one "$1"
    qemu-io -f qcow2 -d unmap -c "write -P 0x33 $c $((2 * c))" -c "discard $((3 * c)) $c" "$1" > /dev/null
    qemu-img snapshot -c another "$1"
    qemu-io -f qcow2 -c "write -P 0x44 $((2 * c)) $c" -c "write -P 0x55 $((16 * c)) $c" "$1" > /dev/null
}

raw_snapshots() { # FILE: what qemu reads of the snapshots, to FILE.one and FILE.another
    local name
    for name in one another; do
        qemu-img convert -f qcow2 -O raw -l "snapshot.name=$name" "$1" "$1.$name"
    done
}

# Does qstore read what qemu read, by name, by id and by number?
kept() { # FILE
    local number=0 name word
    for name in one another; do
        for word in "$name" $((number + 1)) "#$number"; do
            "$QSTORE" read "$1" 0 "$(stat -c %s "$1.$name")" --snapshot "$word" | cmp -s - "$1.$name" || {
                echo "no: $word"; return
            }
        done
        number=$((number + 1))
    done
    echo yes
}

# Does qemu still read the same of them?
kept_by_qemu() { # FILE
    local name
    for name in one another; do
        qemu-img convert -f qcow2 -O raw -l "snapshot.name=$name" "$1" now
        cmp -s now "$1.$name" || { echo "no: $name"; return; }
    done
    echo yes
}

# The two checks, the disk's bytes, and the snapshots'.
beside() { # FILE
    echo "$(ours "$1"), $(theirs "$1"), $(compare "$1"), $(kept "$1"), $(kept_by_qemu "$1")"
}
good='sound, sound, identical, yes, yes'

held() { # WHAT BYTES COMMAND OPERANDS..: of s, which is left alone
    local what=$1 bytes=$2 command=$3 text code=0; shift 3
    cp s s.before
    text=$(head -c "$bytes" /dev/urandom | "$QSTORE" "$command" s "$@" 2>&1) || code=$?
    text=$(grep -o 'refused ([0-9]*)' <<< "$text" || true)
    expect "$what" "$code $text, $(cmp -s s s.before && echo unchanged || echo changed)" '1 refused (22), unchanged'
}

# Are id, name and date those that qemu lists?
dated() { # FILE
    local ours theirs
    ours=$("$QSTORE" info "$1" | sed -n 's/^  #[0-9]* (id "\(.*\)", name "\(.*\)"): \(.*\) UTC, disk size \([0-9]*\).*/\1 \2 \3/p')
    theirs=$(TZ=UTC qemu-img snapshot -l "$1" | sed -n 's/^\([0-9][0-9]*\)  *\([^ ]*\)  *[0-9.]* [KMGi]*B \([0-9-]* [0-9:]*\) .*/\1 \2 \3/p')
    [ -n "$ours" ] && [ "$ours" = "$theirs" ] && echo yes || echo "no: $ours; $theirs"
}

of_kind() { # OPTIONS SIZE ROOM
    local c end=$2 u
    echo "-- $1, disk of $2 bytes, two snapshots"
    rm -f s s.*
    with_snapshots s "$2" "$1"
    room s "$3"
    c=$((1 << $(field s 20)))
    qemu-img convert -f qcow2 -O raw s s.raw; raw_snapshots s
    expect "as qemu made it: checks, disk, snapshots" "$(beside s)" "$good"
    expect "  id, name and date as qemu lists them" "$(dated s)" yes
    held "a write to what a snapshot holds" 100 write 7
    held "  of a whole cluster" "$c" write 0
    held "  that begins where nothing is" $((c + 1)) write $((7 * c))
    held "a discard of what a snapshot holds" 0 discard 0 "$c"
    held "  of the whole disk" 0 discard 0 "$end"
    both s $((2 * c)) 100; both s $((16 * c + 9)) 200
    expect "writes to what is the disk's alone" "$(beside s)" "$good"
    both s $((20 * c + 1)) 300; both s $((end - 300)) 300
    expect "writes that allot" "$(beside s)" "$good"
    for u in 1 $((c + 1)); do
        cp s w; cp s.raw w.raw; cp s.one w.one; cp s.another w.another
        head -c 100 /dev/urandom | "$QSTORE" write w $((24 * c)) --allowance "$u" > /dev/null || true
        expect "a write cut after $u units" "$(beside w)" 'leaks 1, leaks 1, identical, yes, yes'
        cp w mended; qemu-img check -q -f qcow2 -r leaks mended > /dev/null 2>&1
        "$QSTORE" repair w > /dev/null
        expect "  repaired by qstore" "$(beside w)" "$good"
        expect "  repaired by qemu" "$(ours mended), $(theirs mended)" 'sound, sound'
    done
    "$QSTORE" discard s $((16 * c)) "$c" > /dev/null
    dd if=/dev/zero of=s.raw bs="$c" seek=16 count=1 conv=notrunc status=none
    expect "a discard of what is the disk's alone" "$(beside s)" "$good"
    after_qemu "$c"
}

# qemu goes on with the image s.
after_qemu() { # CLUSTER
    local c=$1
    qemu-io -f qcow2 -c "write -P 0x66 100 200" s > /dev/null
    qemu-io -f raw -c "write -P 0x66 100 200" s.raw > /dev/null
    room s 0
    expect "then a write by qemu, which copies" "$(beside s)" "$good"
    both s 7 100
    expect "  and one by qstore to the copy" "$(beside s)" "$good"
    qemu-img snapshot -d one s; room s 0; cp s.another s.one
    "$QSTORE" read s 0 "$(stat -c %s s.another)" --snapshot another | cmp -s - s.another && text=yes || text=no
    expect "snapshot one deleted by qemu" "$(ours s), $(theirs s), $(compare s), $text" 'sound, sound, identical, yes'
    qemu-img snapshot -d another s; room s 0
    expect "the other too" "$(ours s), $(theirs s), $(compare s)" 'sound, sound, identical'
    both s "$((c + 3))" 100
    expect "  then what it held is written" "$(ours s), $(theirs s), $(compare s)" 'sound, sound, identical'
}

echo "== Snapshots that qemu made: qstore's check, qemu's; the disk; the snapshots by qstore, by qemu"
kinds_of_images > kinds
while read -r options size free; do of_kind "$options" "$size" "$free"; done < kinds

echo "-- other things that qemu does with snapshots"
create s 64k -o cluster_size=512,compat=0.10; qemu-io -f qcow2 -c 'write -P 0x11 0 64k' s > /dev/null
snapshots s 64; pad s
expect "64 snapshots: qstore, qemu" "$(ours s), $(theirs s)" 'sound, sound'
expect "  the last is read" "$("$QSTORE" read s 0 64k --snapshot s64 | tr -d '\021' | wc -c)" 0

create s 1M -o cluster_size=4096; qemu-io -f qcow2 -c 'write -P 0x11 0 1M' s > /dev/null
qemu-img snapshot -c small s; qemu-img resize -q s 3M; qemu-img snapshot -c large s
qemu-io -f qcow2 -c 'write -P 0x22 2M 100k' s > /dev/null; pad s; shorten s
expect "a disk that was lengthened between snapshots" "$(ours s), $(theirs s)" 'sound, sound'
expect "  the disk's size then" "$("$QSTORE" info s | sed -n 's/.*disk size \([0-9]*\)$/\1/p' | xargs)" '1048576 3145728'
# qemu reads each of them as long as the disk is now.
for name in small large; do qemu-img convert -f qcow2 -O raw -l "snapshot.name=$name" s "$name"; done
truncate -s 1M small
expect "  the smaller one" "$("$QSTORE" read s 0 1M --snapshot small | cmp - small && echo same)" same
expect "  the larger one" "$("$QSTORE" read s 0 3M --snapshot large | cmp - large && echo same)" same
qemu-img snapshot -a small s; pad s; shorten s
expect "  qemu goes back to the smaller one" "$(ours s), $(theirs s)" 'sound, sound'
expect "  the larger one then" "$("$QSTORE" read s 0 3M --snapshot large | cmp - large && echo same)" same

# An id comes before a name; a name that two snapshots have is not guessed at.
create s 64k -o cluster_size=512,compat=0.10
for name in 2 x x; do
    qemu-io -f qcow2 -c "write -P 0x1$(qemu-img snapshot -l s | wc -l) 0 64k" s > /dev/null
    qemu-img snapshot -c "$name" s
done
pad s
for word in 1 2 3; do
    qemu-img convert -f qcow2 -O raw -l "$word" s by_word
    expect "the snapshot '$word', which may be a name" \
        "$("$QSTORE" read s 0 64k --snapshot "$word" | cmp - by_word && echo "as qemu takes it")" 'as qemu takes it'
done
text=$("$QSTORE" read s 0 1 --snapshot x 2>&1 || true)
expect "  a name of two snapshots" "$(grep -o "snapshots '#1', '#2' are all called" <<< "$text")" "snapshots '#1', '#2' are all called"

with_snapshots s 65536 compat=0.10,cluster_size=512; pad s
l1=$(field s 44); l2=$(($(field s $((l1 + 4)))))
flip() { # AT: turns bit 63 of an entry over
    local byte
    byte=$(od -An -tu1 -j"$1" -N1 s | tr -d ' ')
    printf "\\$(printf %o $((byte ^ 128)))" | dd of=s bs=1 seek="$1" conv=notrunc status=none
}
finding() { # FILE
    "$QSTORE" check "$1" --json | grep -o '"finding": "[a-z]*", "l1_index": [0-9]*\(, "l2_index": [0-9]*\)*' | tr -d '"' || true
}
for at in "$l1" "$l2" $((l2 + 16)); do
    flip "$at"
    expect "bit 63 of the entry at $at turned over: qstore, qemu" "$(ours s), $(theirs s)" 'damaged, damaged'
    case $at in
        "$l1") wanted='finding: mark, l1_index: 0' ;;
        *) wanted="finding: mark, l1_index: 0, l2_index: $(((at - l2) / 8))" ;;
    esac
    expect "  named" "$(finding s)" "$wanted"
    flip "$at"
done
expect "  and back" "$(ours s), $(theirs s)" 'sound, sound'
rm -f s s.* w w.* small large by_word
