# Sourced by run.sh: checks in portions of images that qemu made. However they are cut,
# they say what the whole checks of both say; qemu may write to the image between two.

entries() { # FILE: the L1 entries of all its tables
    local text
    text=$("$QSTORE" check "$1" --state none --entries 0 --json) || true
    text=${text##*'"entries": '}; echo "${text%%,*}"
}

# What the last portion says, and how many they were. The command is run between two,
# with the number of those before it.
in_portions() { # FILE ENTRIES [COMMAND]
    local number=0 text code=4
    rm -f state
    while [ $code = 4 ]; do
        if [ $number != 0 ]; then ${3-true} $number; fi
        code=0; text=$("$QSTORE" check "$1" --state state --entries "$2" --json) || code=$?
        number=$((number + 1))
    done
    case $text in *'"the image was changed between two portions'*) number="$number, changed" ;; esac
    echo "$(verdict "$text") in $number"
}

portioned() { # WHAT FILE WANTED
    local total each
    total=$(entries "$2")
    expect "$1: qstore, qemu" "$(ours "$2"), $(theirs "$2")" "$3, $3"
    for each in 1 $((total / 3 + 1)) "$total"; do
        expect "  $each of $total L1 entries at a time" "$(in_portions "$2" "$each")" \
            "$3 in $(((total + each - 1) / each))"
    done
}

make_p() { # SIZE ROOM OPTIONS: the image p with ROOM free clusters
    create p "$1" -o "$3"; pad p; shorten p
    c=$((1 << $(field p 20))); reach=$((c * c / 8))
    truncate -s "+$(($2 * c))" p
}

byte=0
write_p() { # OFFSET LENGTH: other bytes each time
    byte=$((byte % 255 + 1))
    qemu-io -f qcow2 -c "write -P $byte $1 $2" p > /dev/null
}

# Writes of qemu between two portions: to clusters that are there; to new ones below
# the first entry that is not taken yet; and below one that was taken.
in_place() { write_p 100 1000; }
ahead() { write_p $(($1 * step * reach + 20 * c)) 700; }
behind() { if [ "$1" = 1 ]; then write_p $((40 * c)) 700; fi; }

portions_of() { # SIZE ROOM OPTIONS
    local step total number c reach
    echo "-- $3, disk of $1 bytes"
    make_p "$1" "$2" "$3"
    write_p 0 2000; write_p $(($1 / 2)) 1500; write_p $(($1 - 1000)) 1000
    portioned "written by qemu" p sound
    total=$(entries p); step=$(((total + 7) / 8)); number=$(((total + step - 1) / step))
    expect "qemu writes in place meanwhile" "$(in_portions p $step in_place), $(theirs p)" \
        "sound in $number, changed, sound"
    expect "  below entries that are ahead" "$(in_portions p $step ahead), $(theirs p)" \
        "sound in $number, changed, sound"
    # What is counted no more seems damaged; the whole check says how it is.
    expect "  below an entry that was taken; whole" "$(in_portions p $step behind); $(ours p), $(theirs p)" \
        "damaged in $number, changed; sound, sound"
    head -c 100 /dev/urandom | "$QSTORE" write p $((45 * c)) --allowance 1 > /dev/null || true
    portioned "a write of qstore cut after 1 units" p 'leaks 1'
}

echo "== Checks in portions: what they say, and how many they were"
portions_of 1048576 60 compat=0.10,cluster_size=512
portions_of 1048576 60 compat=1.1,cluster_size=512
portions_of 1048576 60 compat=1.1,cluster_size=512,refcount_bits=64
portions_of 16777216 50 compat=1.1,cluster_size=4096,refcount_bits=1
portions_of 4294967296 50 compat=0.10,cluster_size=65536
portions_of 1099511627776 20 compat=1.1,cluster_size=2M

echo "-- two snapshots, and damage"
for kind in 'compat=0.10,cluster_size=512 65536' 'compat=1.1,cluster_size=512,refcount_bits=2 65536' \
    'compat=1.1,cluster_size=4096 8388608'; do
    read -r options size <<< "$kind"
    with_snapshots p "$size" "$options"; room p 20
    portioned "$options" p sound
done
create p 1M -o compat=0.10; fill p; pad p; patch p $((0x20001)) '\000'
portioned "a short count" p damaged

echo "-- the file that keeps a check"
kept_by() { # what a portion says, and whether the file is as it was before it
    local text
    cp state state.before
    text=$(said "$QSTORE" check p --state state --entries 1)
    case $text in
        *'it keeps the check of an image of '*) text='1 of another length' ;;
        *'it keeps the check of another file '*) text='1 of another file' ;;
        *'The image has been changed since'*) text='1 ended, changed since' ;;
    esac
    echo "$text, $(cmp -s state state.before && echo unchanged || echo changed)"
}
make_p 1048576 20 compat=0.10,cluster_size=512; write_p 0 2000; rm state
"$QSTORE" check p --state state --entries 1 > /dev/null || true
nbd p; expect "qemu has the image open" "$(kept_by)" '1 open for writing, unchanged'; end_nbd
cp p q; mv p p.own; mv q p
expect "a copy of the image" "$(kept_by)" '1 of another file, unchanged'
mv p.own p
expect "the image again" "$("$QSTORE" check p --state state)" sound
write_p 0 2000
expect "written by qemu after the check ended" "$(kept_by)" '1 ended, changed since, unchanged'
make_p 1048576 0 compat=0.10,cluster_size=512; rm state
"$QSTORE" check p --state state --entries 1 > /dev/null || true
write_p 0 2000; pad p
expect "made longer by qemu" "$(kept_by)" '1 of another length, unchanged'
rm -f p p.* q state state.before
