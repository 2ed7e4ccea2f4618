# Sourced by run.sh: the commands that are advised are run as they stand, until
# the image is accepted; the guest's bytes stay the same, and a file that is to
# be kept is not changed. Every command of advised.tsv has to be met by a test.
: > met

# The commands between backquotes, one a line.
commands() { # TEXT
    { grep -o '`[^`]*`' || true; } <<< "$1" | tr -d '`'
}

# A command without its names and figures, as advised.tsv has it.
kinds() { # FILE < COMMANDS
    sed -E "s#([ =])$1\\.new[0-9]*( |\$)#\\1NEW\\2#g; s#([ =])$1([ ,]|\$)#\\1IMAGE\\2#g
        s#-s ([%+]?)[0-9]+ #-s \\1N #g; s#(convert|compare) -f [a-z0-9]+ #\\1 -f F #; s#(resize .*) [0-9]+\$#\\1 N#
        s#(qstore extend IMAGE) [0-9]+#\\1 N#"
}

fault() { other=$((other + 1)); echo "$1"; } # TEXT

# Runs what is advised. A new image takes the place of the old one, which must
# be as it was, if its disk was not lengthened first.
heed_once() { # FILE TEXT
    local lines command
    lines=$(commands "$2"); kinds "$1" <<< "$lines" >> met
    cp "$1" "$1.before"; rm -f "$1.new"
    while read -r command; do
        case $command in
            'qstore extend '*) "$PROGRAM" ${command#qstore } > /dev/null 2> said || fault "failed: $command: $(cat said)" ;;
            'qstore '*) ;;
            *) sh -ec "$command" > /dev/null 2> said || fault "failed: $command: $(cat said)" ;;
        esac
    done <<< "$lines"
    if [ -e "$1.new" ]; then
        case $lines in
            *' resize '*) ;;
            *) cmp -s "$1" "$1.before" || fault "changed: $1" ;;
        esac
        mv "$1.new" "$1"
    fi
}

heed_all() { # WHAT FILE NUMBERS: what is refused or damaged in turn, until it is accepted
    local text numbers=""
    while text=$("$QSTORE" check "$2" 2>&1 || true); true; do
        case $text in
            # A new image that nothing lies under is noted, where a backing file is given.
            sound* | *' is not used'*sound) break ;;
            damaged*) numbers="${numbers}damaged " ;;
            *) numbers="$numbers${text#*refused (}"; numbers="${numbers%%)*} " ;;
        esac
        heed_once "$2" "$text"
        if [ ${#numbers} -gt 16 ]; then break; fi
    done
    expect "$1: heeded" "$numbers" "$3 "
}

heed() { # WHAT FILE NUMBERS
    # What qemu read of it before, if that is not given.
    if [ ! -e "$2.raw" ]; then qemu-img convert -O raw "$2" "$2.raw"; fi
    heed_all "$@"
    expect "  then" "$(ours "$2"), $(theirs "$2"), $(compare "$2")" 'sound, sound, identical'
    rm -f "$2.raw" "$2.before"
}

# As qemu made images until 5.1.
older() { # FILE
    pad "$1"; shorten "$1"
}

patch() { # FILE OFFSET BYTES, as printf has them
    printf "$3" | dd of="$1" bs=1 seek="$2" conv=notrunc status=none
}

rm -f a.raw
echo "== What is advised, carried out"
create a 1M; fill a; heed "create" a 6
create a 1M; heed "create, nothing written" a '5 6'
create a 64k -o compat=0.10,cluster_size=512; heed "-o compat=0.10,cluster_size=512" a 5
create a 1M; fill a; qemu-img snapshot -c s a; fill a; heed "a snapshot" a 6
create a 1M -o compat=0.10,cluster_size=4096; fill a
snapshots a 65; pad a; heed "65 snapshots" a 6
create a 1M; fill a; qemu-img bitmap --add a b; heed "a persistent bitmap" a '5 6'
create a 1M -o cluster_size=2M; fill a; heed "-o cluster_size=2M" a 6
for bits in 1 2 4 8 32 64; do
    create a 1M -o refcount_bits=$bits; fill a; heed "-o refcount_bits=$bits" a 6
done
create a 1M -o extended_l2=on; fill a; heed "-o extended_l2=on" a '5 6'
create a 1M -o compression_type=zstd; fill a; heed "-o compression_type=zstd" a 6
create a 1M -o data_file=d; fill a; heed "-o data_file=.." a 6
create a 1M -o lazy_refcounts=on
bash -c "qemu-io -f qcow2 -c 'write 0 100k' -c abort a; true" > /dev/null 2>&1; heed "qemu killed" a 6
create a 1M; fill a; older a; patch a 79 '\002'; heed "the corrupt bit" a 7
create a 2049M -o cluster_size=512; fill a; heed "2049M with clusters of 512 bytes" a '6 8'
create a 2049M -o cluster_size=512; fill a; older a; heed "  the same from older versions" a 8
create a 1G -o preallocation=metadata; fill a; heed "a file above 1,073,741,824 bytes" a 5
for format in qcow qed vdi vmdk vhdx vpc parallels; do
    qemu-img create -q -f $format a 1M
    qemu-io -f $format -c 'write -P 0x11 5000 100000' a > /dev/null
    case $format in qcow) number=3 ;; *) number=2 ;; esac
    heed "a $format image" a $number
done
head -c 300000 /dev/urandom > a; heed "a raw file" a 2

create a 1M; fill a; older a; truncate -s -90000 a; heed "cut short inside a cluster" a 5
small() { # FILE: 512-byte clusters
    create "$1" 64k -o cluster_size=512
    qemu-io -f qcow2 -c 'write -P 0x11 500 40000' "$1" > /dev/null; older "$1"
}
small a; truncate -s 1G a; heed "more clusters than the refcount table has entries for" a 9
small a; patch a 518 '\000\000'; heed "a refcount table entry lost" a 10
small a; truncate -s 1M a; heed "more clusters than the refcount blocks count" a 10
small a; patch a 518 '\377\000'
heed "a refcount table entry that names no cluster" a 10

head -c 500000 /dev/zero | tr '\0' x > raw
qemu-img convert -f raw -O qcow2 -c raw a; heed "convert -c" a '5 6 damaged'
qemu-img convert -f raw -O qcow2 -o compat=0.10 -c raw a; older a; heed "convert -c, older" a damaged
for image in 40-short-data 43-shared-data 51-entry-l2-bit63-no-place; do
    cp "$here/../images/$image.qcow2" a; heed "images/$image" a damaged
done

# Bad entries: the file is to be kept, and no comparison is advised.
salvaged() { # WHAT OFFSET BYTES: of an image with an L1 table at 0x30000 and an L2 table at 0x40000
    local text
    create a 1M -o compat=0.10; fill a; pad a; patch a "$2" "$3"
    text=$("$QSTORE" check a || true)
    expect "$1" "${text%%:*}, $(grep -c 'Keep this file for good' <<< "$text")" 'damaged, 1'
    expect "  advised" "$(commands "$text" | command cut -d' ' -f1-3)" 'qemu-img convert --salvage'
    heed_once a "$text"
    expect "  then" "$(ours a), $(theirs a)" 'sound, sound'
    rm -f a.before
}
salvaged "an L1 entry inside a cluster" $((0x30006)) '\002'
salvaged "an L2 entry inside a cluster" $((0x40006)) '\002'
salvaged "an L2 entry past the file's end" $((0x40003)) '\001'

# All obstacles that info lists, heeded at once in its order.
listed() { # WHAT FILE NUMBERS
    local text
    if [ ! -e "$2.raw" ]; then qemu-img convert -O raw "$2" "$2.raw"; fi
    text=$("$QSTORE" info "$2" || true)
    expect "$1: listed by info" "$(sed -n 's/^refused (\([0-9]*\)).*/\1/p' <<< "$text" | xargs)" "$3"
    heed_once "$2" "$text"
    expect "  then" "$(ours "$2"), $(theirs "$2"), $(compare "$2")" 'sound, sound, identical'
    rm -f "$2.raw" "$2.before"
}
create a 1M; listed "create" a '5 6'
create a 1M -o extended_l2=on; fill a; listed "-o extended_l2=on" a '5 6 7'
create a 2049M -o cluster_size=512,lazy_refcounts=on
bash -c "qemu-io -f qcow2 -c 'write 0 100k' -c abort a; true" > /dev/null 2>&1
listed "2049M with clusters of 512 bytes, qemu killed" a '6 7 8'
qemu-img convert -f raw -O qcow2 -c raw a; listed "convert -c" a '5 6 13'

# A write without room: what is advised is enough at once.
create a 1M -o compat=0.10; fill a
head -c 500000 /dev/urandom > data
text=$("$QSTORE" write a 400000 < data 2>&1 || true)
expect "a write without room" "$(grep -o 'refused ([0-9]*)' <<< "$text")" 'refused (14)'
heed_once a "$text"
"$QSTORE" write a 400000 < data > /dev/null && text=written || text=refused
expect "  then" "$text, $(ours a), $(theirs a)" 'written, sound, sound'
past_counts() { # WHAT BYTES OPTIONS WANTED: a write into an image with few counts, and the command that is advised
    create a 4M -o "$3"; older a; head -c "$2" /dev/urandom > data
    text=$("$QSTORE" write a 400000 < data 2>&1 || true)
    expect "$1" "$(grep -o 'refused ([0-9]*)' <<< "$text"), $(commands "$text" | head -1 | command cut -d' ' -f1-2)" "refused (14), $4"
    heed_once a "$text"
    "$QSTORE" write a 400000 < data > /dev/null && text=written || text=refused
    expect "  then" "$text, $(ours a), $(theirs a)" 'written, sound, sound'
    "$QSTORE" read a 400000 "$2" | cmp -s - data && text=yes || text=no
    expect "  the bytes are there" "$text" yes
}
past_counts "a write past the stored counts" 500000 compat=0.10,cluster_size=512 'qstore extend'
past_counts "a write past the refcount table" 2500000 compat=1.1,cluster_size=512,refcount_bits=64 'qemu-img convert'

# No image of qemu has a disk that ends inside a sector: 104,001 bytes, set by hand.
create a 1M -o compat=0.10; fill a; qemu-img convert -O raw a a.raw; truncate -s 104448 a.raw
patch a 29 '\001\226A'; heed "a disk of 104,001 bytes" a 18
create a 1M -o refcount_bits=8; fill a; older a; qemu-img convert -O raw a a.raw; truncate -s 104448 a.raw
patch a 29 '\001\226A'; heed "  with counts of 8 bits" a 18
create a 1M; fill a; qemu-img convert -O raw a a.raw; truncate -s 104448 a.raw
patch a 29 '\001\226A'; patch a 112 unkn; listed "  with an unknown header extension" a '6 18'

# What a snapshot holds: the new image has the disk alone, and takes the write.
create a 1M -o compat=0.10; fill a; qemu-img snapshot -c s a; pad a; rm -f a.raw
head -c 1000 /dev/urandom > data
text=$("$QSTORE" write a 5000 < data 2>&1 || true)
expect "a write to what a snapshot holds" "$(grep -o 'refused ([0-9]*)' <<< "$text")" 'refused (22)'
heed_once a "$text"
"$QSTORE" write a 5000 < data > /dev/null && text=written || text=refused
expect "  then" "$text, $(ours a), $(theirs a)" 'written, sound, sound'
"$QSTORE" read a 5000 1000 | cmp -s - data && text=yes || text=no
expect "  the bytes are there" "$text" yes

# Where the advice is to leave the file, since qemu refuses it too.
refuses() { # WHAT OFFSET BYTES NUMBER
    create a 1G; older a; patch a "$2" "$3"
    qemu-img convert -O raw a b 2> /dev/null && text=read || text=refused
    expect "$1: qstore, qemu" "$(ours a), $text" "refused $4, refused"
    expect "  commands advised" "$(commands "$("$QSTORE" check a 2>&1 || true)")" ''
}
refuses "version 4" 7 '\004' 3
refuses "clusters of 4M" 23 '\026' 4
refuses "clusters of 256 bytes" 23 '\010' 4
refuses "crypt_method 3" 35 '\003' 6
refuses "header_length 96" 103 '\140' 6
refuses "refcount_order 7" 99 '\007' 6
refuses "bit 5 of incompatible_features" 79 '\040' 7
refuses "the bit of another compression type, without one" 79 '\010' 7
refuses "an L1 table of one entry" 39 '\001' 8
refuses "an L1 table inside a cluster" 47 '\001' 9
refuses "a refcount table inside a cluster" 55 '\001' 9
refuses "no refcount table" 59 '\000' 9

# The same by the snapshots.
refuses_kept() { # WHAT OFFSET BYTES NUMBER QEMU: the offset in the header, or from the snapshot table on
    create a 1M; fill a; qemu-img snapshot -c s a; older a
    case $2 in
        +*) patch a $(($(field a 68) + $2)) "$3" ;;
        *) patch a "$2" "$3" ;;
    esac
    qemu-img convert -f qcow2 -O raw a b 2> /dev/null && text=read || text=refused
    expect "$1: qstore, qemu" "$(ours a), $text" "refused $4, $5"
    if [ "$5" = refused ]; then
        expect "  commands advised" "$(commands "$("$QSTORE" check a 2>&1 || true)")" ''
    else
        heed "  what is advised" a "$4"
    fi
}
refuses_kept "a snapshot table inside a cluster" 71 '\001' 21 refused
refuses_kept "65,537 snapshots" 60 '\000\001\000\001' 6 refused
refuses_kept "extra data of 16,777,240 bytes" +36 '\001' 21 refused
refuses_kept "a snapshot table past the file's end" 67 '\001' 21 read
refuses_kept "a snapshot's name past the file's end" +14 '\377\377' 21 read
refuses_kept "a snapshot's L1 table inside a cluster" +7 '\001' 21 read
refuses_kept "  past the file's end" +4 '\001' 21 read
refuses_kept "  with 65,537 entries" +8 '\000\001\000\001' 21 read

sort -u met > met.sorted
sed -n 's#\tinterop/advice.sh$##p' "$here/advised.tsv" | sort > wanted
expect "commands of advised.tsv that are to be met here" "$(comm -12 wanted met.sorted | wc -l)" 5
expect "  not met" "$(comm -23 wanted met.sorted)" ''
sed 's#\t.*##' "$here/advised.tsv" | sort > wanted
expect "  met, but not in advised.tsv" "$(comm -13 wanted met.sorted)" ''
