# A new image is on the disk before it takes its place, and a cut or a failure at any moment leaves what was there before, an old image
# or none, or the new one. witness.c, preloaded, sees the calls and makes them fail.

# begin OLD: the image before a command, alone; none where OLD is empty
begin() {
    rm -f disk .flexbox-*.new
    [ -z "$1" ] || cp "$1" disk
}

# is IMAGE: what is there after it
is() {
    if [ -n "$1" ]; then cmp disk "$1"; else [ ! -e disk ] || fail "an image was made"; fi
}

# calls_are TEXT: all calls of the last command under the witness; the new file's name is NEW
calls_are() {
    sed 's/\.flexbox-[0-9]*-[0-9]*-[^ ]*\.new/NEW/' log | uniq | tr '\n' ' ' >calls
    [ "$(cat calls)" = "$1 " ] || fail "calls: $(cat calls)"
}

# whole OLD PLACING COUNT VARIABLE=VALUE.. ARGUMENT..: a command that makes 'new' of OLD by COUNT calls, cut before any of them or with
# any of them failing, leaves OLD up to the PLACING-th, which puts it in place, and 'new' after that; what a failure leaves behind
# beside it is named
whole() {
    local old=$1 placing=$2 count=$3 with=() i there left
    shift 3
    while [[ $1 == WITNESS_* ]]; do with+=("$1") && shift; done
    for ((i = 1; i <= count; i++)); do
        there=$old
        [ $i -le "$placing" ] || there=new
        begin "$old"
        witnessed "${with[@]}" WITNESS_STOP=$i -- "$@"
        [ "$status" = 99 ] || fail "not cut before call $i: $*"
        is "$there"
        begin "$old"
        witnessed "${with[@]}" WITNESS_FAIL=$i -- "$@"
        [ "$status" = 3 ] || fail "status $status after call $i failed: $*"
        is "$there"
        left=$(find . -name '*.new')
        [ -z "$left" ] || says "its first name, $left, could not be removed"
    done
    begin "$old"
    witnessed "${with[@]}" -- "$@"
    [ "$status" = 0 ] || fail "failed under the witness: $*: $(cat err)"
    is new
}

if [ -n "$witness" ]; then
    folder=$(basename "$PWD")
    fresh
    cp disk old

    # ---- locked, read, a new file made that nobody else may read, written, synced, the old one read again, the new one renamed
    # while the old one is locked, the folder synced, and nothing else
    does delete disk NORTH.TXT
    cp disk new
    whole old 3 4 delete disk NORTH.TXT
    calls_are "open disk lock disk read disk open $folder make 600 NEW write NEW sync NEW read disk rename disk sync $folder"

    rm disk
    does format --date 12-03-81 disk
    cp disk new

    # ---- a new image is put there by a rename that replaces nothing; where the file system has none, by a link
    whole "" 3 4 format --date 12-03-81 disk
    calls_are "open . make 666 NEW write NEW sync NEW move disk sync $folder"
    whole "" 4 6 WITNESS_NO_MOVES=1 format --date 12-03-81 disk
    calls_are "open . make 666 NEW write NEW sync NEW move disk link disk remove NEW sync $folder"
    [ "$(stat -c %h disk)" = 1 ] || fail "the new image has two names"

    # ---- repair, format --replace and what --force changes keep the old image first, by a rename that replaces nothing, synced, and only
    # then put the new one in place. Cut at any moment, they leave the old image or the new one, and the old one beside it before it is
    # gone; where they fail, no second old one stays
    # kept COUNT: after so many of its calls the old image is there under both names, and no more
    kept() {
        if [ "$1" -ge 3 ]; then cmp disk.before old; else [ ! -e disk.before ] || fail "kept after $1 calls"; fi
    }
    # keeping STATUS ARGUMENT..: a command that makes another image of 'old', and ends so
    keeping() {
        local ends=$1 i there left
        shift
        begin old
        rm -f disk.before
        witnessed -- "$@"
        [ "$status" = "$ends" ] || fail "status $status: $*: $(cat err)"
        cp disk new
        for i in 1 2 3 4 5 6 7 8; do
            there=old
            [ $i -le 7 ] || there=new
            begin old
            rm -f disk.before
            witnessed WITNESS_STOP=$i -- "$@"
            [ "$status" = 99 ] || fail "not cut before call $i: $*"
            is $there
            kept $((i - 1))
            begin old
            rm -f disk.before
            witnessed WITNESS_FAIL=$i -- "$@"
            [ "$status" = 3 ] || fail "status $status after call $i failed: $*"
            is $there
            left=$(find . -name '*.new')
            [ -z "$left" ] || fail "left behind: $left: $*"
            if [ $i = 8 ]; then
                cmp disk.before old
                says "the new image is in place, but its folder could not be synced: Input/output error (os error 5); the old image is disk.before"
            else
                [ ! -e disk.before ] || fail "kept though call $i failed: $*"
            fi
        done
    }
    begin ""
    fresh
    patch "$(sector 1 6)" 0 0
    cp disk old
    saving="open . make 600 NEW write NEW sync NEW read disk move disk.before sync $folder open $folder make 600 NEW write NEW sync NEW read disk rename disk sync $folder"
    keeping 0 format --replace --date 12-03-81 disk
    begin old
    rm disk.before
    witnessed -- format --replace --date 12-03-81 disk
    calls_are "open disk lock disk read disk $saving"
    keeping 0 delete --force disk NORTH.TXT
    keeping 1 repair --yes disk
    begin old
    rm -f disk.before
    witnessed WITNESS_FAIL=1 -- repair --yes disk
    says "flexbox: disk: not changed, since the old image is not kept: the new image could not be written beside it: No space left"
    witnessed WITNESS_FAIL=5 -- repair --yes disk
    says "flexbox: disk: not changed: the new image could not be written beside it: No space left"
    witnessed -- repair --yes disk
    [ "$status" = 1 ] || fail "status $status after a repair under the witness"
    is new
    calls_are "open disk share disk read disk open disk lock disk read disk $saving"
    rm disk.before
    # ---- a repair that a cut broke off between the two is made again, and keeps the old image once more
    begin old
    witnessed WITNESS_STOP=5 -- repair --yes disk
    witnessed -- repair --yes disk
    is new
    cmp disk.before old
    cmp disk.before-2 old
    rm disk.before disk.before-2
    # ---- and a file that comes to the name of the old image meanwhile stays
    begin old
    echo another >other
    witnessed WITNESS_AT_MOVE="other disk.before" -- repair --yes disk
    [ "$status" = 3 ] || fail "status $status where the name was taken meanwhile"
    says "flexbox: disk.before: another file was put there meanwhile; the old image is not kept, nor changed"
    is old
    [ "$(cat disk.before)" = another ] || fail "another's file is lost"
    rm disk.before
    # ---- on a file system without a rename that replaces nothing, too
    begin old
    witnessed WITNESS_NO_MOVES=1 -- repair --yes disk
    [ "$status" = 1 ] || fail "status $status without such a rename"
    is new
    cmp disk.before old
    [ "$(stat -c %h disk.before)" = 1 ] || fail "the old image has two names"
    rm disk.before
    cp "$demo" old
    begin old
    does format --replace --date 12-03-81 disk
    cp disk new
    rm disk.before

    # ---- where the first name can't be removed, the image is in place and synced all the same; it is not changed before it has one
    # name again, and that is what is said
    begin ""
    witnessed WITNESS_NO_MOVES=1 WITNESS_FAIL=5 -- format --date 12-03-81 disk
    calls_are "open . make 666 NEW write NEW sync NEW move disk link disk remove NEW sync $folder"
    is new
    first=$(find . -name '*.new')
    why="the new image is in place, but its first name, $first, could not be removed: Input/output error (os error 5)"
    [ "$(cat err)" = "flexbox: disk: $why; flexbox does not change an image with two names until one is removed" ] ||
        fail "it says: $(cat err)"
    refuses 3 "flexbox: disk: it has 2 hard links" format --replace disk
    rm "$first"
    does format --replace disk

    begin ""
    witnessed WITNESS_FAIL=1 -- format disk
    says "flexbox: disk: not made: the new image could not be written beside it: No space left"
    witnessed WITNESS_FAIL=3 -- format disk
    says "flexbox: disk: not made: "
    ! grep -F .flexbox- err || fail "a file that is gone is named"

    fresh
    witnessed WITNESS_FAIL=1 -- rename disk NORTH.TXT NEW.TXT
    says "flexbox: disk: not changed: the new image could not be written beside it: No space left"
    fresh
    witnessed WITNESS_FAIL=3 -- rename disk NORTH.TXT NEW.TXT
    says "flexbox: disk: "
    ! grep -F .flexbox- err || fail "a file that is gone is named"

    # ---- get writes files as images are saved: cut or failing at any moment, there is the old file or the new one, whole, or none
    # given OLD PLACING ARGUMENT..: get of NORTH.TXT to 'there', which is OLD before, or is not there; the PLACING-th call puts it there
    given() {
        local old=$1 placing=$2 i expected
        shift 2
        does get disk NORTH.TXT
        cp out new
        for i in 1 2 3 4; do
            for how in STOP FAIL; do
                expected=$old
                [ $i -le "$placing" ] || expected=new
                rm -f there .flexbox-*.new
                [ -z "$old" ] || cp "$old" there
                witnessed WITNESS_$how=$i -- "$@"
                [ "$status" = "$([ $how = STOP ] && echo 99 || echo 3)" ] || fail "status $status at call $i of get: $(cat err)"
                if [ -n "$expected" ]; then cmp there "$expected"; else [ ! -e there ] || fail "a part of a file is left"; fi
                left=$(find . -name '*.new')
                [ $how = STOP ] || [ -z "$left" ] || fail "left behind by get: $left"
            done
        done
        rm -f there .flexbox-*.new
        [ -z "$old" ] || cp "$old" there
        witnessed -- "$@"
        [ "$status" = 0 ] || fail "status $status of get: $(cat err)"
        cmp there new
    }
    fresh
    given "" 3 get disk NORTH.TXT=there
    calls_are "open disk share disk read disk open . make 666 NEW write NEW sync NEW move there sync $folder"
    witnessed WITNESS_FAIL=1 -- get disk NORTH.TXT=part
    says "flexbox: part: not written: the new file could not be written beside it: No space left"
    echo old >was
    given was 3 get --replace disk NORTH.TXT=there
    calls_are "open disk share disk read disk open $folder make 600 NEW write NEW sync NEW rename unlocked there sync $folder"

    # ---- what a flexbox that is gone has left beside an image: check tells of it, and the next change of that image removes it and says so
    fresh
    cp disk other
    witnessed WITNESS_STOP=2 -- delete disk NORTH.TXT
    left=$(basename "$(find . -name '*.new')")
    [[ $left == .flexbox-*-0-disk.new ]] || fail "not left: $left"
    touch .flexbox-$$-0-disk.new # of a process that is running: this one
    does check disk
    shows "  left by a flexbox that is gone: $left; the next change of the image removes it"
    [ "$(grep -c 'left by' out)" = 1 ] || fail "told of another: $(cat out)"
    does check --json disk
    shows "\"left_behind\":[\"$left\"]"
    does check other
    hides "left by"
    does delete other NORTH.TXT
    does put other NEW.TXT <<<new
    [ -e "$left" ] || fail "removed by the change of another image"
    ln -s disk link
    warns "flexbox: link: $left, left by a flexbox that is gone, is removed" rename link NORTH.TXT WEST.TXT
    [ ! -e "$left" ] && [ -e .flexbox-$$-0-disk.new ] || fail "not the right ones removed: $(ls -A)"
    does check disk
    hides "left by"
    does rename disk WEST.TXT EAST.TXT
    rm link .flexbox-$$-0-disk.new
    fresh
    patch "$(sector 1 6)" 0 0
    witnessed WITNESS_STOP=2 -- repair --yes disk
    left=$(basename "$(find . -name '*.new')")
    ends 1 "" check disk
    shows "left by a flexbox that is gone: $left;"
    status=0
    "${flexbox[@]}" repair --yes disk >out 2>err || status=$?
    checks=$((checks + 1))
    [ "$status" = 1 ] && [ ! -e "$left" ] || fail "status $status after a repair, left: $(ls -A)"
    says "flexbox: disk: $left, left by a flexbox that is gone, is removed"
    rm disk.before
else
    echo "flexbox: no compiler here: the order of write, sync and rename was not tried"
fi
