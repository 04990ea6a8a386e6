# What another program does between two calls of flexbox: witness.c, preloaded, comes between them each time. Those who win such a
# race by chance are in 50-lock.sh.

printf 'bytes\n' >lines

# two: the demo diskette, and 'other' without NORTH.TXT
two() {
    fresh
    cp disk other
    does delete other NORTH.TXT
    cp other other.before
}

# ended STATUS: the last command under the witness
ended() { [ "$status" = "$1" ] || fail "status $status, not $1, under the witness: $(cat err)"; }

if [ -n "$witness" ]; then
    # ---- an image that is replaced after it was opened and before it is locked: the new one is changed, or looked at
    two
    witnessed WITNESS_AT_LOCK="other disk" -- put disk NEW.TXT <lines
    ended 0
    does list disk
    shows NEW.TXT
    hides NORTH.TXT
    two
    witnessed WITNESS_AT_LOCK="other disk" -- list disk
    ended 0
    hides NORTH.TXT
    shows SOUTH.TXT

    # ---- a link that leads elsewhere by then: the image behind it now is changed, the one before is not
    two
    ln -s disk link
    ln -s other link.new
    witnessed WITNESS_AT_LOCK="link.new link" -- put link NEW.TXT <lines
    ended 0
    cmp disk "$demo"
    does list other
    shows NEW.TXT

    # ---- an image that was moved, with its link, and another put where it was: that other one is not overwritten
    two
    ln -sfn disk link
    ln -s moved link.new
    witnessed WITNESS_AT_LOCK="disk moved link.new link other disk" -- put link NEW.TXT <lines
    ended 0
    cmp disk other.before
    does list moved
    shows NEW.TXT
    rm link moved

    # ---- one that is gone by then, with nothing in its place
    fresh
    witnessed WITNESS_AT_LOCK="disk gone" -- put disk NEW.TXT <lines
    ended 3
    says "flexbox: disk: No such file"
    cmp gone "$demo"

    # ---- a FIFO that takes the image's place before it is opened is not waited for, and is no image
    for command in list delete; do
        fresh
        rm -f pipe
        mkfifo pipe
        witnessed WITNESS_AT_OPEN="pipe disk" -- $command disk $([ $command = list ] || echo NORTH.TXT)
        ended 3
        says "flexbox: disk: not a regular file"
        grep -qx 'open disk' log || fail "refused before it was opened: not the race that is meant"
        rm disk
    done

    # ---- what is no regular file from the start is not even opened: that alone can wind a tape
    for command in list put; do
        witnessed -- $command /dev/zero $([ $command = list ] || echo A.TXT) <lines
        ended 3
        says "flexbox: /dev/zero: not a regular file"
        [ ! -e log ] || fail "calls on what is no image: $(cat log)"
    done

    # ---- a file with a second name, or a read-only one, that takes its place before it is locked
    two
    ln other second
    witnessed WITNESS_AT_LOCK="other disk" -- put disk NEW.TXT <lines
    ended 3
    says "2 hard links"
    cmp disk other.before
    rm second
    two
    chmod 444 other
    witnessed WITNESS_AT_LOCK="other disk" -- put disk NEW.TXT <lines
    ended 3
    says "write-protect tab"
    cmp disk other.before

    # ---- format --replace, too, takes the place of the image that is there by then
    two
    witnessed WITNESS_AT_LOCK="other disk" -- format --replace disk
    ended 0
    does check disk
    shows "disk: clean, 0 files"
    cmp disk.before other.before
    rm disk.before
    fresh
    witnessed WITNESS_AT_LOCK="disk gone" -- format --replace disk
    ended 3
    says "flexbox: disk: No such file"
    cmp gone "$demo"

    # ---- a file that comes to where format is about to put a new one stays, with --replace too, and on a file system that has no
    # rename which replaces nothing
    for way in WITNESS_NO_MOVES=0 WITNESS_NO_MOVES=1; do
        for option in --replace --; do
            rm -f disk
            cp "$demo" other
            witnessed $way WITNESS_AT_MOVE="other disk" -- format $option disk
            ended 3
            says "flexbox: disk: another file was put there meanwhile; not made"
            cmp disk "$demo"
            left=$(find . -name '*.new')
            [ -z "$left" ] || fail "left behind by format: $left"
        done
    done

    # ---- so does one that comes to where demo is about to put its own
    fresh
    cp "$demo" other
    witnessed WITNESS_AT_MOVE="other new" -- demo disk new damaged
    ended 3
    says "flexbox: new: another file was put there meanwhile; not made"
    cmp new "$demo"
    cmp disk "$demo"

    # ---- an image that is written to in place, after it was read and up to the moment when it is replaced, stays so: what was
    # stored there is not lost, and no old image is kept
    # stored COUNT ARGUMENT..: a command on 'old' by COUNT calls before the rename
    stored() {
        local i
        for ((i = 1; i <= $1; i++)); do
            cp old disk
            witnessed WITNESS_STORE=$i -- "${@:2}"
            ended 3
            says "flexbox: disk: changed meanwhile by another program; nothing is written"
            printf '!' | cat - <(tail -c +2 old) | cmp - disk
            [ ! -e disk.before ] || fail "kept though nothing was changed: ${*:2}"
            left=$(find . -name '*.new')
            [ -z "$left" ] || fail "left behind: $left"
        done
    }
    fresh
    cp disk old
    stored 2 put disk NEW.TXT=lines
    stored 2 delete disk NORTH.TXT
    stored 2 rename disk NORTH.TXT NEW.TXT
    fresh
    patch "$(sector 1 6)" 0 0
    cp disk old
    stored 6 repair --yes disk

    # ---- repair looks under the shared lock, and takes the exclusive one when it is agreed to: an image that came between the two is not
    # replaced, be it another file or other bytes in this one; the same bytes in another file are repaired
    rm -f disk.before*
    for other in "$demo" old; do
        cp old disk
        cp "$other" other
        witnessed WITNESS_AT_CLAIM="other disk" -- repair --yes disk
        if [ "$other" = old ]; then
            ended 1
            does check disk
            cmp disk.before old
            rm disk.before
        else
            ended 3
            says "flexbox: disk: changed meanwhile by another program; nothing is written"
            cmp disk "$demo"
            [ ! -e disk.before ] || fail "kept though another image came"
        fi
        grep -qx 'share disk' log || fail "not looked at under the shared lock: $(cat log)"
    done
    cp old disk
    stored 6 format --replace disk
    stored 6 delete --force disk NORTH.TXT

    # ---- on a file system without locks one looks all the same, and changes nothing
    fresh
    witnessed WITNESS_NO_LOCKS=1 -- list disk
    ended 0
    shows NORTH.TXT
    witnessed WITNESS_NO_LOCKS=1 -- delete disk NORTH.TXT
    ended 3
    says "flexbox: disk: it can't be locked"
    cmp disk "$demo"
    witnessed WITNESS_NO_LOCKS=1 -- format --replace disk
    ended 3
    cmp disk "$demo"
    rm disk
    witnessed WITNESS_NO_LOCKS=1 -- format disk
    ended 0
    does check disk
else
    echo "flexbox: no compiler here: what others do between two calls of flexbox was not tried"
fi
