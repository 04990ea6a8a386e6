# Several at once: the image is locked from before it is read until the new one is in its place.

# put_late NUMBER NAME IMAGE: waits for the lock as long as it must; messages and status go to files
put_late() {
    local status=0
    echo "log $1" | limited "${flexbox[@]}" put --wait 60 "$3" "$2" >"out$1" 2>"err$1" || status=$?
    echo $status >"status$1"
}

# late_waits: until put 9 says that it waits
late_waits() {
    local tries
    for ((tries = 0; tries < 600; tries++)); do
        ! grep -qs "waiting up to 60 s" err9 || return 0
        sleep 0.05
    done
    fail "put 9 does not say that it waits: $(cat err9)"
}

# ---- of eight that put at once, all eight files are there
fresh
for i in 1 2 3 4 5 6 7 8; do
    put_late "$i" "LOG$i.TXT" disk &
done
wait
does list disk
for i in 1 2 3 4 5 6 7 8; do
    [ "$(cat "status$i")" = 0 ] || fail "put $i of eight: $(cat "err$i")"
    shows "LOG$i.TXT"
done
does check disk

# ---- of eight that format one new image at once, one makes it, and the others say that it is there
rm disk
for i in 1 2 3 4 5 6 7 8; do
    (
        status=0
        limited "${flexbox[@]}" format --tracks "$((i + 1))" disk >"out$i" 2>"err$i" || status=$?
        echo $status >"status$i"
    ) &
done
wait
[ "$(cat status? | sort | tr '\n' ' ')" = "0 3 3 3 3 3 3 3 " ] || fail "eight formats end with $(cat status? | tr '\n' ' ')"
for i in 1 2 3 4 5 6 7 8; do
    [ "$(cat "status$i")" = 0 ] || grep -qE 'there (already|meanwhile)' "err$i" || fail "format $i of eight: $(cat "err$i")"
done
does check disk
sectors=$(($(stat -c %s disk) / 256))
[ "$(cat out?)" = "disk: blank, $((sectors / 10)) tracks of 10 sectors, $((sectors * 256)) bytes, $((sectors - 10)) sectors free" ] ||
    fail "not the one who says so made it: $(cat out?)"

# ---- while another program has the lock: wait, say so, give up with status 4
if command -v flock >/dev/null; then
    fresh
    exec 9<disk
    flock 9
    refuses 4 "another program still has it locked after 1 s" put --wait 1 disk NEW.TXT <"$demo"
    says "waiting up to 1 s"
    refuses 4 "another program still has it locked after 0 s" delete --wait 0 disk NORTH.TXT
    refuses 4 "another program still has it locked after 0 s" delete --wait=0 disk NORTH.TXT
    refuses 2 "delete: --wait takes a number of seconds from 0 to 65535, not ''" delete --wait= disk NORTH.TXT
    refuses 2 "list: '--json' takes no value" list --json=1 disk
    refuses 4 "another program" list --wait 0 disk
    refuses 4 "another program still has it locked after 0 s" format --replace --wait 0 disk
    refuses 3 "it is there already" format --wait 60 disk
    refuses 4 "another program still has it locked after 5 s" put disk NEW.TXT <"$demo"
    says "waiting up to 5 s"

    # ---- who has the lock is named, as far as the kernel tells
    inode=$(stat -c %i disk)
    if grep -qE "FLOCK +ADVISORY +WRITE +[0-9]+ [0-9a-f]+:[0-9a-f]+:$inode " /proc/locks 2>/dev/null; then
        holder=$(awk -v inode=":$inode\$" '$2 == "FLOCK" && $6 ~ inode { print $5 }' /proc/locks)
        refuses 4 "flexbox: disk: another program still has it locked after 0 s: process $holder, or one that it has started" list --wait 0 disk
        flock -u 9
        flock -F disk sleep 100 & # -F: in one process
        sleeper=$!
        for ((tries = 0; tries < 600; tries++)); do
            ! grep -q ":$inode " /proc/locks || [ "$(cat /proc/$sleeper/comm)" != sleep ] || break
            sleep 0.05
        done
        refuses 4 "locked after 0 s: process $sleeper (sleep)" list --wait 0 disk
        refuses 4 "waiting up to 1 s: process $sleeper (sleep)" list --wait=1 disk
        kill $sleeper
        wait $sleeper 2>/dev/null || true
        flock 9
    else
        echo "flexbox: /proc/locks does not list the lock here: that its holder is named was not tried"
    fi

    # ---- who waited for an image that was replaced meanwhile changes the new one
    cp disk other
    does delete other NORTH.TXT
    put_late 9 LATE.TXT disk &
    late_waits
    mv other disk
    flock -u 9
    wait
    [ "$(cat status9)" = 0 ] || fail "the late put: $(cat err9)"
    does list disk
    shows LATE.TXT
    hides NORTH.TXT

    # ---- one that no path leads to any more is not waited for
    fresh
    exec 9<disk
    flock 9
    cp disk other
    rm err9
    put_late 9 LATE.TXT disk &
    late_waits
    mv other disk
    wait
    [ "$(cat status9)" = 0 ] || fail "the late put: $(cat err9)"
    does list disk
    shows LATE.TXT

    # ---- one that became read-only meanwhile is not changed
    fresh
    exec 9<disk
    flock 9
    rm err9
    put_late 9 LATE.TXT disk &
    late_waits
    chmod 444 disk
    flock -u 9
    wait
    [ "$(cat status9)" = 3 ] || fail "read-only by now: $(cat err9)"
    cmp disk "$demo"

    # ---- who waited for the image behind a link changes the one that the link leads to by now
    fresh
    cp disk other
    ln -s disk link
    exec 9<disk
    flock 9
    rm err9
    put_late 9 LATE.TXT link &
    late_waits
    ln -sfn other link
    flock -u 9
    wait
    [ "$(cat status9)" = 0 ] || fail "the late put: $(cat err9)"
    cmp disk "$demo"
    does list other
    shows LATE.TXT
    rm link other

    # ---- those who only look do not keep each other out, and keep a change out until they are done
    exec 9<disk
    flock -s 9
    does list --wait 0 disk
    refuses 4 "another program" delete --wait 0 disk SOUTH.TXT
    flock -u 9
    exec 9<&-
    does delete --wait 0 disk SOUTH.TXT

    # ---- a get that waits for whoever takes its bytes keeps nobody out
    fresh
    mkfifo slow
    "${flexbox[@]}" get --replace disk NORTH.TXT=slow &
    for _ in $(seq 100); do
        sleep 0.05
        ! grep -qs '^State:.*sleeping' "/proc/$!/status" || break
    done
    does delete --wait 0 disk NORTH.TXT
    does get "$demo" NORTH.TXT
    timeout 60 cmp slow out
    wait
    rm slow
else
    echo "flexbox: no flock here: only eight puts at once were tried"
fi
