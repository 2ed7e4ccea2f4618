# Sourced by backing.sh: while one of qemu and qstore has a backing file open, the
# other may read it, and neither changes it.
echo "-- locks on a backing file: the exit code and what is said"
base 1048576; cp base.raw b.raw; rm -f a a.*; echo hello > data
create a 1M -o compat=0.10 -b base.raw -F raw; fill a; fit a 8; cp a c
nbd_of() { # FORMAT FILE OPTIONS..
    local format=$1 file=$2; shift 2
    qemu-nbd --fork -k "$work/socket" --pid-file="$work/nbd.pid" -f "$format" "$@" "$file"
}
same_base() { cmp -s base.raw b.raw && echo unchanged || echo changed; }

nbd_of raw base.raw
expect "qemu writes to it: qstore check, write" "$(said "$QSTORE" check a), $(said "$QSTORE" write a 5000)" \
    '1 open for writing, 1 open for writing'
expect "  discard, repair" "$(said "$QSTORE" discard a 0 64k), $(said "$QSTORE" repair a)" \
    '1 open for writing, 1 open for writing'
expect "  check --share" "$(said "$QSTORE" check a --share)" '0 note, sound'
expect "  the image" "$(cmp -s a c && echo unchanged)" unchanged
end_nbd
nbd_of qcow2 c
expect "a machine runs over it: another image, check, write" \
    "$(said "$QSTORE" check a), $(said "$QSTORE" write a 5000)" '0 sound, 0 wrote'
expect "  its own image" "$(said "$QSTORE" check c)" '1 open for writing'
end_nbd

wait_for_input
for _ in $(seq 200); do grep -q ":$(stat -c %i base.raw) 203 203\$" /proc/locks && break; sleep 0.05; done
expect "qstore waits over it: qemu-io write to it" "$(said qemu-io -f raw -c 'write 0 512' base.raw)" '1 no lock'
expect "  a read, a machine over it" "$(qemu-io -r -f raw -c 'read 0 512' base.raw > /dev/null && echo yes), $(nbd_of qcow2 c && echo yes)" \
    'yes, yes'
end_nbd
end_input
expect "  its input ends" "$text, $("$QSTORE" read a 5000 5), $(theirs a), $(same_base)" 'written, hello, sound, unchanged'
