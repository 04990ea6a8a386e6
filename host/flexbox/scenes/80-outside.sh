# What others say of a blank diskette: MAME's floptool, where it is there, calls it one of FLEX.

# called: whether floptool calls the image one of FLEX; it looks at the size and at the information record
called() {
    checks=$((checks + 1))
    timeout 60 floptool identify disk >identified 2>&1 || fail "floptool failed: $(cat identified)"
    grep -qw flex identified
}

if command -v floptool >/dev/null; then
    for shape in 35x10 40x18 80x36; do
        rm -f disk
        does format --tracks "${shape%x*}" --sectors "${shape#*x}" --label OUTSIDE disk
        called || fail "floptool does not call $shape a diskette of FLEX: $(cat identified)"
        # One free chain that begins at no track, and one shape that is another: neither is.
        patch 541 255
        ! called || fail "floptool does not look at the free chain: $(cat identified)"
        patch 541 1
        called || fail "floptool does not call $shape a diskette of FLEX by now: $(cat identified)"
        patch 551 99
        ! called || fail "floptool does not look at the shape: $(cat identified)"
    done
else
    echo "flexbox: no floptool here (Debian's package mame-tools): what MAME calls a blank diskette was not seen"
fi
