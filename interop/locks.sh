# Sourced by run.sh: while one of qemu and qstore has an image open, the other
# keeps away. Needs qemu-nbd.

nbd() { # FILE OPTIONS..: qemu has the file open from here on
    local file=$1; shift
    qemu-nbd --fork -k "$work/socket" --pid-file="$work/nbd.pid" -f qcow2 "$@" "$file"
}

end_nbd() {
    local pid
    if [ -s "$work/nbd.pid" ]; then
        pid=$(cat "$work/nbd.pid"); rm "$work/nbd.pid"
        kill "$pid" 2> /dev/null || true
        while kill -0 "$pid" 2> /dev/null; do sleep 0.05; done
    fi
}
trap 'end_nbd; rm -rf "$work"' EXIT

# What a command says, with its exit code, in short.
said() { # COMMAND..
    local text code=0
    text=$("$@" 2>&1 < data) || code=$?
    case $text in
        *'for writing (permission '*) text='open for writing' ;;
        *'a change shares it with nobody'*) text='open' ;;
        *'Failed to get '*' lock'*) text="no lock" ;;
        *'note: looked at without a lock'*sound) text='note, sound' ;;
        *'wrote '*) text=wrote ;;
    esac
    echo "$code $text"
}

changed() { cmp -s a b && echo no || echo yes; }

# qstore waits for its input, with all locks of a change taken.
wait_for_input() { # of a write to a
    rm -f input; mkfifo input
    "$QSTORE" write a 5000 < input > output & waiting=$!
    exec 9> input
    for _ in $(seq 200); do
        grep -q ":$(stat -c %i a) 200 203\$" /proc/locks && break
        sleep 0.05
    done
}

end_input() {
    cat data >&9; exec 9>&-
    wait $waiting && text=written || text=failed
}

echo "== Locks: the exit code and what is said"
create a 1M -o compat=0.10; fill a; pad a; echo hello > data
nbd a; cp a b
expect "qemu writes: qstore write" "$(said "$QSTORE" write a 5000)" '1 open for writing'
expect "  discard, repair" "$(said "$QSTORE" discard a 0 64k), $(said "$QSTORE" repair a)" \
    '1 open for writing, 1 open for writing'
expect "  check" "$(said "$QSTORE" check a)" '1 open for writing'
expect "  check --share" "$(said "$QSTORE" check a --share)" '0 note, sound'
expect "  the file changed" "$(changed)" no
end_nbd
nbd a -r
expect "qemu reads: qstore write" "$(said "$QSTORE" write a 5000)" '1 open'
expect "  check, the file changed" "$(said "$QSTORE" check a), $(changed)" '0 sound, no'
end_nbd

wait_for_input
expect "qstore waits to write: qemu-io write" "$(said qemu-io -f qcow2 -c 'write 0 512' a)" '1 no lock'
expect "  qemu-img info, check" "$(said qemu-img info a), $(said qemu-img check a)" '1 no lock, 1 no lock'
expect "  another qstore write" "$(said "$QSTORE" write a 0)" '1 open for writing'
expect "  qstore check, check --share" "$(said "$QSTORE" check a), $(said "$QSTORE" check a --share)" \
    '1 open for writing, 0 note, sound'
expect "  the file changed" "$(changed)" no
end_input
expect "  its input ends" "$text, $("$QSTORE" read a 5000 5), $(theirs a)" 'written, hello, sound'
