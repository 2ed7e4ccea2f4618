# Sourced by backing.sh: what is advised over a backing file, carried out. qemu is
# told of the file that is given: the images here name one that is not there.
: > met

# The backing file in the place of the one that the image names.
options_over() { # FILE
    echo "driver=qcow2,file.driver=file,file.filename=$1,backing.driver=raw,backing.file.driver=file,backing.file.filename=$BASE"
}

theirs_over() { # FILE: the disk beside the raw file
    qemu-img compare -q --image-opts "$(options_over "$1")" driver=raw,file.driver=file,file.filename="$1.raw" \
        && echo identical || echo different
}

lost() { # FILE: the raw file beside it, and then a name that leads nowhere
    qemu-img convert -f qcow2 -O raw "$1" "$1.raw"
    qemu-img rebase -u -f qcow2 -b missing.raw -F raw "$1"
}

echo "-- what is advised over a backing file, carried out"
base 1048576; cp base.raw b.raw; rm -f a a.*
create a 1M -b base.raw -F raw; lost a; heed_all "create -b" a '5 6'
expect "  then" "$(ours a), $(reads a), $(theirs_over a)" 'sound, yes, identical'
expect "  the format is still seen" "$(qemu-img info -f qcow2 a | grep -c '^backing file format: raw')" 1
create a 1M -b base.raw -F raw; fill a; lost a
text=$("$QSTORE" info a || true)
expect "create -b, written: listed by info" "$(sed -n 's/^refused (\([0-9]*\)).*/\1/p' <<< "$text" | xargs)" 6
heed_once a "$text"
expect "  then" "$(ours a), $(reads a), $(theirs_over a)" 'sound, yes, identical'
create a 1M -b base.raw -F raw; QSTORE=$qstore; text=$("$QSTORE" info a || true); QSTORE=$work/over
expect "the same without the file: listed" "$(sed -n 's/^refused (\([0-9]*\)).*/\1/p' <<< "$text" | xargs)" '5 6 19'

# A new image: without the snapshots, and with the backing file's bytes in it.
anew() { # WHAT NUMBERS
    heed_all "$1" a "$2"
    QSTORE=$qstore
    expect "  then, without a backing file" "$(ours a), $(theirs a), $(compare a)" 'sound, sound, identical'
    QSTORE=$work/over
}
create a 1M -o lazy_refcounts=on -b base.raw -F raw; fill a; lost a; patch a 79 '\001'; anew "the dirty bit" '6'
create a 1M -o compat=0.10 -b base.raw -F raw; fill a; fit a 0; lost a; patch a $((0x20001)) '\000'; anew "a short count" damaged

# A file whose name has what qemu's options are parted by.
create a 1M -b base.raw -F raw; fill a; lost a; patch a 79 '\001'; cp base.raw "odd, 'name'.raw"; rm -f a.new
text=$(BASE="$work/odd, 'name'.raw" "$QSTORE" check a 2>&1 || true)
while read -r command; do sh -ec "$command" > /dev/null || fault "failed: $command"; done <<< "$(commands "$text")"
mv a.new a; expect "a backing file with an odd name" "$(theirs a), $(compare a)" 'sound, identical'

# What the name in the image is has nothing to do with it: no command without the file.
create a 1M -b base.raw -F raw; patch a 79 '\001'; QSTORE=$qstore
expect "without the file: commands advised" "$(commands "$("$QSTORE" check a --as-if-mended 2>&1 || true)")" ''
QSTORE=$work/over

# Bad entries: what qemu can still read, over the file that is given.
create a 1M -o compat=0.10 -b base.raw -F raw; fill a; fit a 0; lost a; patch a $((0x40006)) '\002'
text=$("$QSTORE" check a || true)
expect "an L2 entry inside a cluster" "$(commands "$text" | command cut -d' ' -f1-4)" 'qemu-img convert --salvage --image-opts'
heed_once a "$text"; QSTORE=$qstore
expect "  then" "$(ours a), $(theirs a)" 'sound, sound'; QSTORE=$work/over

# No room: what is appended is enough, and what is taken in past the stored counts;
# past the refcount table a new image is.
create a 1M -o compat=0.10 -b base.raw -F raw; fill a; lost a
head -c 300000 /dev/urandom > data
text=$("$QSTORE" write a 400000 < data 2>&1 || true); heed_once a "$text"
"$QSTORE" write a 400000 < data > /dev/null && text=written || text=refused
dd if=data of=a.raw bs=64k oflag=seek_bytes seek=400000 conv=notrunc status=none
expect "a write without room: then" "$text, $(ours a), $(reads a), $(theirs_over a)" 'written, sound, yes, identical'
create a 1M -o compat=0.10,cluster_size=512 -b base.raw -F raw; fit a 0; lost a
text=$("$QSTORE" write a 400000 < data 2>&1 || true); heed_once a "$text"
"$QSTORE" write a 400000 < data > /dev/null && text=written || text=refused
dd if=data of=a.raw bs=64k oflag=seek_bytes seek=400000 conv=notrunc status=none
expect "  past the stored counts" "$text, $(ours a), $(reads a), $(theirs_over a)" 'written, sound, yes, identical'
create a 4M -o cluster_size=512,refcount_bits=64 -b base.raw -F raw; fit a 0; lost a; fit a 0
head -c 2500000 /dev/urandom > data
text=$("$QSTORE" write a 400000 < data 2>&1 || true); heed_once a "$text"; QSTORE=$qstore
"$QSTORE" write a 400000 < data > /dev/null && text=written || text=refused
dd if=data of=a.raw bs=64k oflag=seek_bytes seek=400000 conv=notrunc status=none
expect "  past the refcount table" "$text, $(ours a), $(theirs a), $(compare a)" 'written, sound, sound, identical'
QSTORE=$work/over

# A discard in version 2: version 3 has marks. Without a table a zero makes one.
create a 1M -o compat=0.10 -b base.raw -F raw; fill a; fit a 4; lost a; : > data
refused "a discard in version 2" 20 a discard a 64k 64k
heed_once a "$("$QSTORE" discard a 64k 64k 2>&1 || true)"
heed_all "  version 3 by qemu" a 6
"$QSTORE" discard a 64k 64k > /dev/null; zeros a 65536 65536
expect "  then" "$(ours a), $(reads a), $(theirs_over a)" 'sound, yes, identical'
create a 1M -b base.raw -F raw; fit a 4; lost a; fit a 0
refused "a discard without a table" 20 a discard a 0 128k
printf '\0' | "$QSTORE" write a 0 > /dev/null; "$QSTORE" discard a 0 128k > /dev/null; zeros a 0 131072
expect "  after one zero" "$(ours a), $(reads a), $(theirs_over a)" 'sound, yes, identical'
expect "the backing file" "$(cmp -s base.raw b.raw && echo unchanged)" unchanged

# Names that qemu refuses too, and one of no byte, which is none to it.
names() { # WHAT OFFSET BYTES QEMU
    create a 1M -o compat=0.10 -b base.raw -F raw; fill a; fit a 0; patch a "$2" "$3"
    qemu-img convert -f qcow2 -O raw a b 2> /dev/null && text=read || text=refused
    expect "$1: qstore, qemu" "$(ours a), $text" "refused 19, $4"
    if [ "$4" = refused ]; then
        expect "  commands advised" "$(commands "$("$QSTORE" check a 2>&1 || true)")" ''
    fi
}
names "a name of 1,024 bytes" 18 '\004' refused
names "a name past the first cluster" 12 '\000\001' refused
names "a name that ends past it" 14 '\377\374' refused
names "a name of no byte" 19 '\000' read

sed "s#$BASE#BACKING#" met | sort -u > met.sorted
sed -n 's#\tinterop/backing.sh$##p' "$here/advised.tsv" | sort > wanted
expect "commands of advised.tsv that are to be met here" "$(comm -12 wanted met.sorted | wc -l)" 5
expect "  not met" "$(comm -23 wanted met.sorted)" ''
sed 's#\t.*##' "$here/advised.tsv" | sort > wanted
expect "  met, but not in advised.tsv" "$(comm -13 wanted met.sorted)" ''
