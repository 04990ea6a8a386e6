# Repair: what is wrong is said first, then what each file keeps; the old image is kept; no file is cut unasked; and what can't be
# repaired is not touched.

# mends ARGUMENT..: a repair that must be made, of 'disk': the old image is kept, and the census accepts the new one
mends() {
    local got=0
    checks=$((checks + 1)) statuses[1]=seen
    cp disk old
    rm -f disk.before
    limited "${flexbox[@]}" repair "$@" >out 2>err </dev/null || got=$?
    [ "$got" = 1 ] || fail "status $got after a repair: $(cat out err)"
    [ ! -s err ] || fail "wrote to standard error: $(cat err)"
    shows "disk: repaired; the old image is disk.before"
    cmp disk.before old
    cp out told
    does check disk
    shows "disk: clean, "
    cp told out
}

# keeps NAME..: these files of the repaired diskette are as they were on the demo diskette
keeps() {
    local name
    for name in "$@"; do
        "${flexbox[@]}" get "$demo" "$name" >"$name"
        does get disk "$name"
        cmp out "$name"
    done
    cp told out
}

# accident: NORTH.TXT and POWER.TXT end on one shared sector
accident() {
    fresh
    patch "$(sector 2 2)" 2 7
    patch $(($(slot 2) + 15)) 2 7
}

# ---- nothing is wrong: nothing is written, not even in another order
fresh
inode=$(stat -c %i disk)
does repair disk
[ "$(cat out)" = "disk: clean, 3 files, 13 of 32 sectors used, 19 free" ] || fail "it says: $(cat out)"
does repair --dry-run disk
does repair --yes disk
cmp disk "$demo"
[ "$(stat -c %i disk)" = "$inode" ] || fail "a sound image was replaced"
[ ! -e disk.before ] || fail "a sound image was kept twice"

# ---- the accident: first what is wrong, then what is kept; a dry run writes nothing and ends as the repair does
accident
ends 1 "" repair --dry-run disk
[ ! -s err ] || fail "wrote to standard error: $(cat err)"
printf '%s\n' "disk: DAMAGED, 2 findings: DISK ERROR #046: a sector is in no chain, or in two" \
    "  46 sector 2,7 is held by NORTH.TXT (slot 2, at 0,5 byte 40) and by POWER.TXT (slot 4, at 0,5 byte 88)" \
    "  46 sector 2,4 is in no chain" "a repair leaves:" \
    "  NORTH.TXT (slot 2, at 0,5 byte 40): kept whole, 5 sectors; what stands where it shared a sector may be another's" \
    "  SOUTH.TXT (slot 3, at 0,5 byte 64): kept whole, 6 sectors" \
    "  POWER.TXT (slot 4, at 0,5 byte 88): cut from 2 to 1 sector: it leads on to 2,7, which NORTH.TXT (slot 2, at 0,5 byte 40) has" \
    "  free: 20 sectors, 1 of them found again, which was in no chain" \
    "  lost: up to 1 sector of 1 file, and 1 written sector in no chain" \
    "POWER.TXT is rightly chained, and would be cut for NORTH.TXT (slot 2, at 0,5 byte 40), which comes before it." \
    "  to keep all of POWER.TXT and lose NORTH.TXT: flexbox repair --drop NORTH.TXT disk" \
    "  to keep what both have now: flexbox get --force disk POWER.TXT=FILE before, flexbox put --replace disk POWER.TXT=FILE afterwards" \
    "a dry run: nothing is written" >expected
diff expected out || fail "another report"
[ ! -e disk.before ] || fail "a dry run kept an image"
cp out dry

# ---- nobody can be asked whether POWER.TXT may be cut: not changed
cut="1 file would lose up to 1 sector: POWER.TXT (2 to 1 sector, for NORTH.TXT (slot 2, at 0,5 byte 40))"
cut+="; and 1 written sector in no chain would be free, which may be a file's"
ends 2 "flexbox: disk: not changed, since $cut; standard input" repair disk </dev/null
says "--yes repairs it all the same"
ends 2 "standard input is no terminal to ask at" repair disk < <(yes)
[ ! -e disk.before ] || fail "a refused repair kept an image"
mends --yes disk
head -n -1 dry | diff - <(head -n -1 out) || fail "the repair tells something else than the dry run"
keeps SOUTH.TXT
does get disk POWER.TXT
[ "$(wc -c <out)" = 252 ] || fail "POWER.TXT has $(wc -c <out) bytes"
"${flexbox[@]}" get "$demo" POWER.TXT >whole
head -c 252 whole | cmp - out
does repair disk
cmp disk.before old

# ---- somebody can: y, or anything else
if command -v script >/dev/null; then
    # typed ANSWER STATUS: repair at a terminal; what is shown there is in 'out'
    typed() {
        local got=0
        checks=$((checks + 1))
        printf '%s\n' "$1" | limited script -qec "$(printf '%q ' "${flexbox[@]}") repair disk" /dev/null >out || got=$?
        [ "$got" = "$2" ] || fail "status $got, not $2, when '$1' was typed: $(cat out)"
        shows "flexbox: disk: $cut. Repair it all the same? [y/N] "
    }
    for answer in n '' no x 'yikes no'; do
        accident
        cp disk old
        rm -f disk.before
        typed "$answer" 2
        shows "flexbox: disk: not changed"
        cmp disk old
        [ ! -e disk.before ] || fail "kept where the answer was '$answer'"
    done
    for answer in y Yes; do
        accident
        rm -f disk.before
        typed "$answer" 1
        does check disk
    done
    # What is printed goes to a file: the question names by itself whom it is about.
    accident
    rm -f disk.before
    status=0
    echo y | limited script -qec "$(printf '%q ' "${flexbox[@]}") repair disk >told" /dev/null >out || status=$?
    checks=$((checks + 1))
    [ "$status" = 1 ] || fail "status $status where the report goes to a file: $(cat out)"
    shows "flexbox: disk: $cut. Repair it all the same? [y/N] "
    hides "a repair leaves:"
    grep -qF "a repair leaves:" told || fail "no report in the file"
    does check disk
    # However long the answer takes: what a program that asks for no lock has stored meanwhile is not lost.
    accident
    rm -f disk.before out
    status=0
    {
        for ((tries = 0; tries < 600; tries++)); do
            ! grep -qsF "[y/N]" out || break
            sleep 0.05
        done
        patch "$(sector 4 8)" 33
        cp disk old
        echo y
    } | limited script -qec "$(printf '%q ' "${flexbox[@]}") repair disk" /dev/null >out || status=$?
    checks=$((checks + 1))
    [ "$status" = 3 ] || fail "status $status where the image was changed before the answer: $(cat out)"
    shows "flexbox: disk: changed meanwhile by another program; nothing is written"
    cmp disk old
    [ ! -e disk.before ] || fail "kept though the image was changed before the answer"
    # While nobody has answered yet, those who look are let in, as the plan tells one to save a file first, and a change is not.
    accident
    rm -f disk.before out asked
    status=0
    {
        for ((tries = 0; tries < 600; tries++)); do
            ! grep -qsF "[y/N]" asked || break
            sleep 0.05
        done
        limited "${flexbox[@]}" get --force --wait 0 disk POWER.TXT=saved 2>/dev/null || echo "get $?" >meanwhile
        limited "${flexbox[@]}" delete --force --wait 0 disk NORTH.TXT 2>/dev/null || echo "delete $?" >>meanwhile
        echo y
    } | limited script -qec "$(printf '%q ' "${flexbox[@]}") repair disk" /dev/null >asked || status=$?
    checks=$((checks + 3))
    [ "$status" = 1 ] || fail "status $status where a file was saved before the answer: $(cat asked)"
    [ "$(cat meanwhile)" = "get 1
delete 4" ] || fail "while it was asked: $(cat meanwhile)"
    "${flexbox[@]}" get "$demo" POWER.TXT | cmp - saved
    does check disk
    # Who goes away instead of answering has not agreed.
    accident
    cp disk old
    rm -f disk.before
    status=0
    timeout -s HUP 2 script -qec "$(printf '%q ' "${flexbox[@]}") repair disk" /dev/null >out < <(sleep 3) || status=$?
    checks=$((checks + 1))
    shows "Repair it all the same? [y/N] "
    [ "$status" != 1 ] || fail "repaired though nobody answered"
    cmp disk old
    [ ! -e disk.before ] || fail "kept though nobody answered"
else
    echo "flexbox: no 'script' here (Debian's package bsdutils): repair was not asked at a terminal"
fi

# ---- the ways out do what is said of them: both files' bytes as they are now, or all of the later file
accident
ends 1 "" get --force disk POWER.TXT=power
mends --yes disk
does put --replace disk POWER.TXT=power
does get disk POWER.TXT
cmp out power
does get "$demo" POWER.TXT
cmp out power
does check disk
accident
ends 2 "not changed, since 1 written sector in no chain would be free, which may be a file's; standard" repair --drop NORTH.TXT disk </dev/null
mends --yes --drop NORTH.TXT disk
shows "NORTH.TXT is dropped first"
shows "  46 sector 2,7 is held by NORTH.TXT"
hides "rightly chained"
shows "lost: 1 written sector in no chain"
keeps SOUTH.TXT POWER.TXT
does list disk
hides NORTH.TXT
accident
rm -f disk.before
warns "its census: 046 a sector is in no chain, or in two; the old image is disk.before" delete --force disk NORTH.TXT
mends --yes disk
hides "rightly chained"
keeps SOUTH.TXT POWER.TXT

# ---- a file that is dropped: by its name with or without TXT, several, one of two of one name; and who can't be
accident
ends 1 "" repair --dry-run --drop NORTH disk
shows "NORTH.TXT is dropped first"
mends --yes --drop POWER.TXT --drop NORTH.TXT disk
keeps SOUTH.TXT
does list disk
shows "1 file in "
fresh
patch "$(slot 3)" 78 79 82 84 72
mends --drop NORTH.TXT disk
keeps POWER.TXT
"${flexbox[@]}" get "$demo" SOUTH.TXT >south
does get disk NORTH.TXT
cmp out south
accident
ends 2 "flexbox: disk: not changed, since NONE.TXT can't be dropped: 004 name not found" repair --drop NONE.TXT disk
ends 2 "since north.txt can't be dropped: 004 name not found; there is NORTH.TXT: upper and lower case differ" repair --drop north.txt disk
ends 2 "9.TXT can't be dropped: 021" repair --drop 9.TXT disk
ends 2 "at most 8 characters" repair --drop NINECHARS.TXT disk
patch $(($(slot 2) + 11)) 64
ends 2 "NORTH.TXT can't be dropped: 012" repair --drop NORTH.TXT disk
# Another file that would lose something is asked about all the same.
accident
patch "$(sector 1 5)" 0 0
ends 2 "not changed, since 1 file would lose up to 4 sectors: SOUTH.TXT (6 to 2 sectors)" repair --drop NORTH.TXT disk </dev/null
fresh
ends 2 "flexbox: disk: nothing is wrong with it, so no file is dropped; flexbox delete deletes one" repair --drop NORTH.TXT disk
# A name that a shell would split is told in quotes, and so it works.
accident
mv disk "my disk"
status=0
"${flexbox[@]}" repair --dry-run "my disk" >out || status=$?
way=$(sed -n 's/.*lose NORTH.TXT: flexbox //p' out)
[ "$way" = "repair --drop NORTH.TXT 'my disk'" ] || fail "the way out is told as: $way"
status=0
eval '"${flexbox[@]}"' "$way" --yes >out || status=$?
[ "$status" = 1 ] || fail "status $status of the way out"
checks=$((checks + 2))
rm "my disk" "my disk.before"

# ---- a sound file behind a damaged one that runs into it: both are named, and it is asked
fresh
patch "$(sector 1 3)" 2 6
patch $(($(slot 2) + 17)) 0 3
ends 1 "" repair --dry-run disk
shows "45 NORTH.TXT (slot 2, at 0,5 byte 40): sector 3 of 3 is at 2,7, but its stated end is 2,4"
shows "NORTH.TXT (slot 2, at 0,5 byte 40): kept as it is stated, 3 sectors, but to its stated end, 2,4, lead 4 sectors that no file has"
shows "POWER.TXT (slot 4, at 0,5 byte 88): cut from 2 to 0 sectors: its start is 2,6, which NORTH.TXT (slot 2, at 0,5 byte 40) has"
shows "POWER.TXT is rightly chained, and would be cut for NORTH.TXT (slot 2, at 0,5 byte 40), which is damaged and comes before it."
ends 2 "not changed, since 2 files would lose up to 6 sectors: NORTH.TXT (4 sectors on the way to its stated end), POWER.TXT (2 to 0" repair disk
says "POWER.TXT (2 to 0 sectors, for NORTH.TXT"
cp disk both
mends --drop NORTH.TXT disk
keeps SOUTH.TXT POWER.TXT
cp both disk
warns "" delete --force disk NORTH.TXT
mends --yes disk
keeps SOUTH.TXT POWER.TXT

# ---- no way out is told that is none: the earlier file is protected, the later one can't be read
accident
patch $(($(slot 2) + 11)) 128
patch $(($(slot 4) + 11)) 32
ends 1 "" repair --dry-run disk
shows "POWER.TXT is rightly chained"
hides "delete --force"
hides "get --force"

# ---- a file that is damaged itself is not cut unasked either: the question counts what would be lost
# cuts LOSS CUT: the damage of 'disk' costs so much, and only --yes mends it
cuts() {
    rm -f disk.before
    ends 2 "flexbox: disk: not changed, since $1; standard input is no terminal" repair disk </dev/null
    shows "lost: $2"
    [ ! -e disk.before ] || fail "a refused repair kept an image"
    mends --yes disk
}
fresh
patch "$(sector 1 6)" 9 9
cuts "1 file would lose up to 3 sectors: NORTH.TXT (5 to 2 sectors)" "up to 3 sectors of 1 file"
shows "NORTH.TXT (slot 2, at 0,5 byte 40): cut from 5 to 2 sectors: it leads on to 9,9, which is no data sector"
shows "free: 22 sectors, 3 of them found again, which were in no chain"
keeps SOUTH.TXT POWER.TXT
fresh
patch "$(sector 1 6)" 0 0
cuts "1 file would lose up to 3 sectors: NORTH.TXT (5 to 2 sectors)" "up to 3 sectors of 1 file"
shows "cut from 5 to 2 sectors: it ends there"
keeps SOUTH.TXT POWER.TXT
fresh
patch "$(sector 1 6)" 1 3
cuts "1 file would lose up to 3 sectors: NORTH.TXT (5 to 2 sectors)" "up to 3 sectors of 1 file"
shows "cut from 5 to 2 sectors: it leads back to 1,3"
keeps SOUTH.TXT POWER.TXT
fresh
patch $(($(slot 2) + 13)) 0 1
cuts "1 file would lose up to 5 sectors: NORTH.TXT (5 to 0 sectors)" "up to 5 sectors of 1 file"
shows "cut from 5 to 0 sectors: its start is 0,1, which is no data sector"
keeps SOUTH.TXT POWER.TXT
fresh
patch $(($(slot 3) + 17)) 255 255
patch "$(sector 1 6)" 0 0
cuts "2 files would lose up to 29 sectors: NORTH.TXT (5 to 2 sectors), SOUTH.TXT (65535 to 6 sectors)" "up to 29 sectors of 2 files"
shows "SOUTH.TXT (slot 3, at 0,5 byte 64): cut from 65535 to 6 sectors: it ends there"
keeps SOUTH.TXT POWER.TXT
# Behind the stated size, too: what could be read there is in no chain then. NORTH.TXT states 2 of its 5 sectors, or none.
fresh
patch $(($(slot 2) + 17)) 0 2
cuts "1 file would lose up to 3 sectors: NORTH.TXT (3 sectors behind its stated size)" "up to 3 sectors of 1 file"
shows "NORTH.TXT (slot 2, at 0,5 byte 40): kept as it is stated, 2 sectors; behind them its chain led on to 1,8"
keeps SOUTH.TXT POWER.TXT
fresh
patch $(($(slot 2) + 17)) 0 0
cuts "1 file would lose up to 5 sectors: NORTH.TXT (5 sectors behind its stated size)" "up to 5 sectors of 1 file"
shows "NORTH.TXT (slot 2, at 0,5 byte 40): kept as it is stated, no sector"
keeps SOUTH.TXT POWER.TXT

# ---- damage by which no file loses anything is mended without a question
fresh
patch "$(sector 2 4)" 3 1
mends disk
shows "NORTH.TXT (slot 2, at 0,5 byte 40): kept as it is stated, 5 sectors; behind them its chain led on to 3,1"
hides "lost:"
keeps NORTH.TXT SOUTH.TXT POWER.TXT
# A free chain that is wrong, its sectors never written: on a diskette with one file.
head -c 1000 /dev/urandom >four
for free in "1 3" "0 0 0 0 0 0" "9 9" "0 0"; do
    rm -f disk
    does format --tracks 5 --sectors 8 disk
    does put disk A.TXT=four
    patch 541 $free
    mends disk
    shows "disk: DAMAGED, "
    shows "A.TXT (slot 1, at 0,5 byte 16): kept whole, 4 sectors"
    shows "free: 28 sectors, "
    hides "lost:"
    does get --trim disk A.TXT
    cmp out four
done

# ---- what stands in sectors in no chain can be a file's: they are not freed unasked, whichever file keeps as many sectors as it states
# A deleted file's, whose name is told but for its first letter, where the free chain is lost.
fresh
patch 541 0 0 0 0 0 0
cuts "1 file would lose up to 2 sectors: ?LD.TXT (of the deleted or damaged slot at 0,5 byte 16, 2 sectors in no chain)" \
    "up to 2 sectors of 1 file"
shows "of a deleted or damaged slot: ?LD.TXT (at 0,5 byte 16), 2 sectors from "
shows "free: 19 sectors, 19 of them found again, which were in no chain"
keeps NORTH.TXT SOUTH.TXT POWER.TXT
# One byte of a slot: its first, whatever it is then. Or all of it.
for byte in 255 211 0; do
    fresh
    patch "$(slot 3)" "$byte"
    cuts "1 file would lose up to 6 sectors: ?OUTH.TXT (of the deleted or damaged slot at 0,5 byte 64, 6 sectors in no chain)" \
        "up to 6 sectors of 1 file"
    shows "free: 25 sectors, 6 of them found again, which were in no chain"
    hides " SOUTH.TXT"
    keeps NORTH.TXT POWER.TXT
done
fresh
patch "$(slot 3)" 0 0 0 0 0 0 0 0 0 0 0 0 0 0 0 0 0 0 0 0 0 0 0 0
cuts "6 written sectors in no chain would be free, which may be a file's" "6 written sectors in no chain"
keeps NORTH.TXT POWER.TXT
# A link or a start that leads into the free chain: BIG.TXT keeps 20 sectors, and 18 or none of them are its own.
big() {
    rm -f disk
    does format --tracks 9 --sectors 8 disk
    head -c 600 /dev/urandom >three
    head -c 5040 /dev/urandom >twenty
    does put disk A.TXT=three BIG.TXT=twenty
}
big
patch "$(sector 1 5)" 5 1
cuts "1 file would lose up to 18 sectors: BIG.TXT (18 sectors on the way to its stated end)" "up to 18 sectors of 1 file"
shows "BIG.TXT (slot 2, at 0,5 byte 40): kept as it is stated, 20 sectors, but to its stated end, 3,7, lead 18 sectors that no file has"
big
patch $(($(slot 2) + 13)) 6
cuts "1 file would lose up to 20 sectors: BIG.TXT (20 sectors on the way to its stated end)" "up to 20 sectors of 1 file"
# A.TXT leads to the start of BIG.TXT, and its own third sector is lost, too.
big
patch "$(sector 1 2)" 1 4
ends 2 "2 files would lose up to 21 sectors: A.TXT (1 sector on the way to its stated end), " repair disk </dev/null
says "BIG.TXT (20 to 0 sectors, for A.TXT"
# Dropped with all that leads to its end.
big
patch "$(sector 1 5)" 5 1
mends --drop BIG.TXT disk
hides "lost:"
# The data sector of a directory that has grown, and was cut off.
rm -f disk
does format --tracks 4 --sectors 5 disk
for number in 1 2 3 4 5 6 7 8 9 10 11; do echo "$number" >"F$number.TXT"; done
does put --files disk F*.TXT
patch 1024 0 0
cuts "2 written sectors in no chain would be free, which may be a file's" "2 written sectors in no chain"
fresh
patch "$(slot 3)" 255
mends --yes disk
printf 'bytes\n' >lines
does put disk NEW.TXT <lines
does check disk

# ---- a directory that has grown into a file's sectors keeps them
rm -f disk
does format --tracks 3 --sectors 5 disk
head -c 1000 /dev/zero >large
does put disk A.TXT=large
patch 1024 1 2
patch $((6 * 256)) 0 0
ends 1 "" repair --dry-run disk
shows "A.TXT (slot 1, at 0,5 byte 16): cut from 4 to 1 sector: it leads on to 1,2, which the directory has"
mends --yes disk

# ---- what can't be repaired, with the reason, in one line: no diskette, no directory, two files of one name and which
fresh
patch $((4 * 256)) 0 4
ends 2 "flexbox: disk: not repairable: 042 directory not right: directory: its sector 0,5 links to 0,4" repair disk
shows "disk: DAMAGED, 1 finding: DISK ERROR #042: directory not right"
ends 2 "not repairable: 042" repair --dry-run disk
ends 2 "not repairable: 042" repair --yes disk
fresh
patch "$(slot 3)" 78 79 82 84 72
ends 2 "flexbox: disk: not repairable: 043 two files of one name: NORTH.TXT (slot 2, at 0,5 byte 40) and slot 3 have one name" repair disk
says "flexbox rename --slot 2 disk NEW.EXT gives one of them another"
warns "" rename --force disk NORTH.TXT OTHER.TXT
does repair disk
# By its slot also where no call takes the name, or the first of the two is protected; the old image is kept.
fresh
patch "$(slot 2)" 57 0 0 0 0
patch "$(slot 3)" 57 0 0 0 0
ends 2 "flexbox rename --slot 2 disk NEW.EXT gives one of them another" repair disk
rm -f disk.before*
warns "disk: saved; its census: accepted; the old image is disk.before" rename --slot 2 disk NEW.TXT
does check disk
fresh
patch "$(slot 3)" 78 79 82 84 72
patch $(($(slot 2) + 11)) 128
ends 2 "flexbox rename --slot 3 disk NEW.EXT gives one of them another" repair disk
refuses 1 "DISK ERROR #011" rename --slot 2 disk NEW.TXT
warns "its census: accepted" rename --slot 3 disk NEW.TXT
does check disk
fresh
patch "$(slot 3)" 78 79 82 84 72
warns "its census: accepted" delete --slot 3 disk
keeps NORTH.TXT POWER.TXT
fresh
truncate -s -1 disk
refuses 2 "flexbox: disk: not repairable: 041 not the image of a diskette" repair disk
truncate -s 800000 disk
refuses 2 "not repairable: 041" repair --yes disk
: >disk
refuses 2 "not repairable: 041" repair disk
rm -f disk.before
refuses 3 "flexbox: none: No such file" repair none
[ ! -e none.before ] || fail "an image that is not there was kept"

# ---- an older image that was kept is never lost, whatever has its name
rm -f disk.before*
for kept in disk.before disk.before-2 disk.before-3; do
    fresh
    patch "$(sector 1 6)" 0 0
    cp disk old
    status=0
    "${flexbox[@]}" repair --yes disk >out || status=$?
    [ "$status" = 1 ] || fail "status $status after a repair"
    shows "disk: repaired; the old image is $kept"
    cmp "$kept" old
    checks=$((checks + 1))
    echo "older" >"$kept"
done
[ "$(cat disk.before disk.before-2 disk.before-3 | sort -u)" = older ] || fail "an older image was replaced"
rm disk.before*
mkdir disk.before
ln -s nowhere disk.before-2
fresh
patch "$(sector 1 6)" 0 0
status=0
"${flexbox[@]}" repair --yes disk >out || status=$?
[ "$status" = 1 ] || fail "status $status where a folder has the name"
shows "the old image is disk.before-3"
[ -L disk.before-2 ] && [ ! -e nowhere ] || fail "a link that leads nowhere was followed or replaced"
checks=$((checks + 1))
rmdir disk.before
rm disk.before*

# ---- mode and link stay; beside a link's target the old image is kept
fresh
patch "$(sector 1 6)" 0 0
chmod 600 disk
mends --yes disk
[ "$(stat -c %a disk disk.before | sort -u)" = 600 ] || fail "a private image was kept for all to read"
mkdir far
rm -f disk.before
fresh
patch "$(sector 1 6)" 0 0
mv disk far/disk
ln -s far/disk link
status=0
"${flexbox[@]}" repair --yes link >out || status=$?
[ "$status" = 1 ] || fail "status $status through a link"
checks=$((checks + 1))
[ -L link ] && [ -f far/disk.before ] && [ ! -e link.before ] || fail "not kept beside what the link leads to"
shows "link: repaired; the old image is $PWD/far/disk.before"

# ---- what is not changed by other commands is not by this one
fresh
patch "$(sector 1 6)" 0 0
chmod 444 disk
refuses 3 "write-protect tab" repair disk
ends 1 "" repair --dry-run disk
chmod 644 disk
ln disk second
refuses 3 "2 hard links" repair disk
rm second
exec 7<disk
flock -x 7
refuses 4 "another program still has it locked" repair --wait 0 disk
refuses 4 "another program still has it locked" repair --wait 0 --dry-run disk
exec 7<&-
refuses 2 "repair: wrong number of words" repair
refuses 2 "repair: wrong number of words" repair disk disk
refuses 2 "repair: no such option '--force'" repair --force disk
refuses 3 "not a regular file" repair /dev/zero

# ---- where what would be done can't be printed, nothing is done
if [ -c /dev/full ]; then
    cp disk old
    unprinted "flexbox: standard output: No space left" repair --yes disk
    cmp disk old
    [ ! -e disk.before ] || fail "kept though nothing was done"
fi

# ---- the other commands tell of it
refuses 1 "DISK ERROR #045" delete disk POWER.TXT
says "flexbox repair --dry-run disk says what a repair would do"
