# Files are put, read back, listed, renamed and deleted, and what the service refuses.

fresh
does list disk
for name in NORTH.TXT SOUTH.TXT POWER.TXT; do shows "$name"; done
does census disk
shows "A  NORTH.TXT"
shows ".  free"
cmp disk "$demo"

# ---- a file is put, read back, renamed, deleted
seq 1 300 >lines
does put disk NIGHT.TXT <lines
does list disk
shows NIGHT.TXT
does census disk
does get --trim disk NIGHT.TXT
cmp out lines
does get disk NIGHT.TXT
[ $(($(wc -c <out) % 252)) = 0 ] || fail "get gave no whole sectors"
head -c "$(wc -c <lines)" out | cmp - lines
does rename disk NIGHT.TXT DAY_2.OLD
does list disk
shows DAY_2.OLD
hides NIGHT.TXT
does get disk DAY_2.OLD --trim
cmp out lines
does delete disk DAY_2.OLD
does list disk
hides DAY_2.OLD
does census disk
shows "A  NORTH.TXT"

# ---- every byte comes back, and TXT is the extension of a name without one
fresh
for i in $(seq 0 255); do printf "\\$(printf %03o "$i")"; done >bytes
does put disk BYTES <bytes
does get disk BYTES.TXT
head -c 256 out | cmp - bytes
[ "$(wc -c <out)" = 504 ] || fail "256 bytes are not two sectors"

# ---- slots with holes: a file behind a slot that was never used is found, and the next new file takes that slot
fresh
does put disk FIRST.TXT <lines
does delete disk NORTH.TXT
patch "$(slot 2)" 0
does check disk
does get disk SOUTH.TXT
cp out south
refuses 1 "DISK ERROR #003" put disk SOUTH.TXT <lines
refuses 1 "DISK ERROR #003" rename disk POWER.TXT SOUTH.TXT
does rename disk SOUTH.TXT WEST.TXT
does put disk NIGHT.TXT <lines
does list disk
grep -qE '^ *1  FIRST.TXT' out || fail "not in slot 1: $(cat out)"
grep -qE '^ *2  NIGHT.TXT' out || fail "the slot that was never used was not taken: $(cat out)"
grep -qE '^ *3  WEST.TXT' out || fail "not in slot 3: $(cat out)"
does get disk WEST.TXT
cmp out south
does delete disk WEST.TXT
does check disk

# ---- refusals of the service
fresh
refuses 1 "DISK ERROR #003" put disk NORTH.TXT <lines
refuses 1 "DISK ERROR #021" put disk 9A.TXT <lines
refuses 1 "DISK ERROR #021" put disk A.T.T <lines
refuses 1 "DISK ERROR #004" get disk north.txt
refuses 1 "DISK ERROR #004" delete disk NONE.TXT
refuses 1 "DISK ERROR #004" rename disk NONE.TXT ONE.TXT
refuses 1 "DISK ERROR #003" rename disk NORTH.TXT NORTH.TXT
refuses 1 "DISK ERROR #003" rename disk NORTH.TXT POWER.TXT
refuses 1 "DISK ERROR #021" rename disk NORTH.TXT NORTH
refuses 1 "DISK ERROR #021" rename disk NORTH.TXT -A.TXT
head -c 100000 /dev/zero >large
refuses 1 "DISK ERROR #007: diskette full (disk, LARGE.TXT: 100000 bytes need 397 sectors, and 19 are free)" put disk LARGE.TXT <large
head -c $((18 * 252)) large >most
refuses 1 "(disk, B.TXT: 253 bytes need 2 sectors, and 1 is free)" put disk A.TXT=most B.TXT=<(head -c 253 large)
refuses 1 "(disk, NORTH.TXT: 100000 bytes need 397 sectors, and 24 are free)" put --replace disk NORTH.TXT <large

# ---- a name without an extension, and one in other case, are told as they are taken, and as they are there
refuses 1 "DISK ERROR #004: name not found (disk, NONE, which has no extension and so is NONE.TXT)" get disk NONE
refuses 1 "name not found (disk, NONE, which has no extension and so is NONE.TXT)" delete disk NONE
refuses 1 "name exists already (disk, NORTH, which has no extension and so is NORTH.TXT)" put disk NORTH <lines
refuses 1 "name not legal (disk, NORTH.TXT to NEW, which has no extension, and a new name must have one)" rename disk NORTH.TXT NEW
refuses 1 "name not legal (disk, slot 2 to NEW, which has no extension, and a new name must have one)" rename --slot 2 disk NEW
refuses 1 "(disk, north.txt; there is NORTH.TXT: upper and lower case differ)" get disk north.txt
refuses 1 "(disk, North, which has no extension and so is North.TXT; there is NORTH.TXT: upper and lower case differ)" delete disk North
refuses 1 "(disk, NORTH.txt to NEW.TXT; there is NORTH.TXT: upper and lower case differ)" rename disk NORTH.txt NEW.TXT
refuses 1 "(disk, none.txt)" get disk none.txt

# ---- protected files: attributes, byte 11 of a slot, are letters in the list
# protected BYTE: NORTH.TXT has these attributes
protected() {
    fresh
    patch $(($(slot 2) + 11)) "$1"
}
# letters TEXT: its line in the list ends so, after the date
letters() {
    does list disk
    grep -qE "NORTH.TXT .* [0-9]{2}-[0-9]{2}-[0-9]{2}$1\$" out || fail "not the letters '$1': $(cat out)"
}
does get disk NORTH.TXT
cp out north
for row in '0:' '16:' '128:  W' '64:  D' '32:  R' '192:  WD' '160:  WR' '96:  DR' '224:  WDR' '255:  WDR'; do
    protected "${row%%:*}"
    letters "${row#*:}"
done
does list --json disk
shows '"write_protected":true,"delete_protected":true,"read_protected":true'
protected 128
refuses 1 "DISK ERROR #011" delete disk NORTH.TXT
refuses 1 "DISK ERROR #011" rename disk NORTH.TXT A.TXT
does get disk NORTH.TXT
protected 192
refuses 1 "DISK ERROR #012" delete disk NORTH.TXT
protected 64
refuses 1 "DISK ERROR #012" delete disk NORTH.TXT
does rename disk NORTH.TXT A.TXT

# ---- a read-protected file is not given, with --force neither, and of several none is; all else goes on as with any file
protected 32
refuses 1 "DISK ERROR #017" get disk NORTH.TXT
says "file is read-protected"
refuses 1 "DISK ERROR #017" get --force disk NORTH.TXT
refuses 1 "DISK ERROR #017" get disk SOUTH.TXT=south-too NORTH.TXT=north-too
[ ! -e south-too ] || fail "a refused get made a file"
does check disk
does census disk
shows "A  NORTH.TXT"
does rename disk NORTH.TXT WEST.TXT
refuses 1 "DISK ERROR #017" get disk WEST.TXT
does delete disk WEST.TXT
protected 224
refuses 1 "DISK ERROR #017" get disk NORTH.TXT
protected 223
does get disk NORTH.TXT
cmp out north

# ---- a new file has no protection: where it replaces one that was read-protected, that is said once it is saved
protected 32
does put disk NEW.TXT <lines
warns "NORTH.TXT: the old file was read-protected; the new one is not" put --replace disk NORTH.TXT <lines
does get --trim disk NORTH.TXT
cmp out lines
does put --replace disk NORTH.TXT <lines
protected 32
refuses 1 "DISK ERROR #007" put --replace disk NORTH.TXT <large
! grep -q read-protected err || fail "said of what was not saved: $(cat err)"
protected 160
refuses 1 "DISK ERROR #011" put --replace disk NORTH.TXT <lines

# ---- a file whose name no call takes is reached by its slot
fresh
patch "$(slot 2)" 57 32 1 # a digit, a blank and a control character before "TH.TXT"
does list disk
shows "   2  9??TH.TXT "
refuses 1 "DISK ERROR #021" get disk "9 .TXT"
does get --slot 2 disk
cmp out north
does get --slot 2 disk by-slot
cmp by-slot north
refuses 3 "by-slot: it is there already; --replace would replace it" get --slot 2 disk by-slot
ln by-slot second-name
refuses 3 "by-slot: it has several hard links" get --slot 2 --replace disk by-slot
rm second-name
does get --slot 2 --replace --trim disk by-slot
does check disk
cp disk named
does rename --slot 2 disk NORTH.TXT
cmp disk "$demo"
cp named disk
does delete --slot 2 disk
does check disk
shows "disk: clean, 2 files, 8 of 32 sectors used, 24 free"
does undelete disk
shows "   2  ???TH.TXT     can be brought back, 5 sectors"
cp named disk
refuses 1 "DISK ERROR #003: name exists already (disk, slot 2 to SOUTH.TXT)" rename --slot 2 disk SOUTH.TXT
refuses 1 "DISK ERROR #003: name exists already (disk, slot 3 to SOUTH.TXT)" rename --slot 3 disk SOUTH.TXT
refuses 1 "DISK ERROR #021" rename --slot 2 disk 9.TXT
for slot in 1 5 41 65535; do # deleted, never used, and more than there are
    refuses 1 "DISK ERROR #004: name not found (disk, slot $slot, which holds no file)" get --slot $slot disk
    refuses 1 "DISK ERROR #004" delete --slot $slot disk
    refuses 1 "DISK ERROR #004" rename --slot $slot disk NEW.TXT
done
patch $(($(slot 2) + 11)) 224
refuses 1 "DISK ERROR #017" get --slot 2 disk
refuses 1 "DISK ERROR #012" delete --slot 2 disk
refuses 1 "DISK ERROR #011" rename --slot 2 disk NEW.TXT
cp named disk
patch "$(sector 1 6)" 0 0
refuses 1 "DISK ERROR #045" get --slot 2 disk
says "slot 2: "
ends 1 "given all the same by --force" get --force --slot 2 disk
[ "$(wc -c <out)" = 504 ] || fail "--force gave $(wc -c <out) bytes"
warns "damaged, but not in this file" get --slot 3 disk
refuses 1 "DISK ERROR #045" delete --slot 2 disk
refuses 2 "--slot and --force do not go together" delete --slot 2 --force disk
refuses 2 "--slot and --force do not go together" rename --slot 2 --force disk NEW.TXT
refuses 2 "--slot and --files do not go together" get --slot 2 --files disk
refuses 2 "get: wrong number of words" get disk
refuses 2 "get: wrong number of words" get --slot 2 disk a b
refuses 2 "delete: wrong number of words" delete disk
refuses 2 "delete: wrong number of words" delete --slot 2 disk NORTH.TXT
refuses 2 "rename: wrong number of words" rename --slot 2 disk
refuses 2 "rename: wrong number of words" rename --slot 2 disk A.TXT B.TXT
refuses 2 "--slot takes the number of a slot from 1 to 65535, not '0'" get --slot 0 disk

# ---- several files, from files and to files; all of them or none
fresh
mkdir logs
printf 'one\n' >logs/ONE.TXT
printf 'two\n' >logs/TWO.TXT
printf 'three\n' >three
does put --files disk logs/ONE.TXT logs/TWO.TXT
does put disk THREE.LOG=three
does get --trim disk ONE.TXT=one TWO.TXT=two
cmp one logs/ONE.TXT
cmp two logs/TWO.TXT
does get --trim --files disk THREE.LOG
cmp THREE.LOG three
refuses 3 "flexbox: three: it is there already; --replace would replace it" get disk THREE.LOG=three
refuses 3 "the image itself" get --replace disk THREE.LOG=disk
does get --replace --trim disk ONE.TXT=three
cmp three logs/ONE.TXT
refuses 1 "DISK ERROR #003" put disk FOUR.TXT=three ONE.TXT=three
refuses 1 "DISK ERROR #004" get disk ONE.TXT=five NONE.TXT=six
[ ! -e five ] || fail "a refused get made a file"
refuses 3 "three: it is there already" get disk ONE.TXT=five TWO.TXT=three
refuses 2 "./five: two files would be written to it" get disk ONE.TXT=five TWO.TXT=./five
refuses 2 "./three: two files would be written to it" get --replace disk ONE.TXT=three TWO.TXT=./three
cmp three logs/ONE.TXT
[ ! -e five ] || fail "a refused get made a file"
for way in "" --replace; do
    # shellcheck disable=SC2086
    refuses 3 "flexbox: logs: this is a folder" get $way disk ONE.TXT=five TWO.TXT=logs
    [ ! -e five ] || fail "a refused get made a file"
done
refuses 3 "flexbox: /dev/null: it is there already; --replace would write to it" get disk ONE.TXT=/dev/null
does get --replace disk ONE.TXT=/dev/null
ln -s three link
refuses 3 "flexbox: link: it is there already; --replace would replace it" get disk TWO.TXT=link
does get --replace --trim disk TWO.TXT=link
[ -L link ] || fail "get replaced a link"
cmp three logs/TWO.TXT
rm link
cp logs/ONE.TXT three
refuses 2 "several files need" put disk A.TXT B.TXT
refuses 2 "named twice" put disk A.TXT=one A=two
refuses 3 "nowhere" put disk A.TXT=nowhere

# ---- a '=' in a path: with --files the whole word is the path, without them the first '=' ends the name
mkdir day=3 3
printf 'right\n' >day=3/EQUAL.TXT
printf 'wrong\n' >3/EQUAL.TXT
does put --files disk day=3/EQUAL.TXT
does put disk SIGN.TXT=day=3/EQUAL.TXT
does get --trim disk EQUAL.TXT=equal SIGN.TXT=sign=
cmp equal day=3/EQUAL.TXT
cmp sign= day=3/EQUAL.TXT
refuses 2 "'logs/A=B.TXT': with --files each word is a FILE" put --files disk logs/A=B.TXT
refuses 2 "'ONE.TXT=seven': with --files each word is a FILE" get --files disk ONE.TXT=seven
[ ! -e seven ] || fail "a refused get made a file"
refuses 2 "'ONE.TXT=': no FILE follows" get disk ONE.TXT=
refuses 2 "'NEW.TXT=': no FILE follows" put disk NEW.TXT=

# ---- a file is replaced, and stays where the new one finds no room or may not replace it
does put --replace disk ONE.TXT <lines
does get --trim disk ONE.TXT
cmp out lines
does put --replace disk NEW.TXT <lines
refuses 1 "DISK ERROR #007" put --replace disk ONE.TXT <large
refuses 2 "standard input is empty" put --replace disk ONE.TXT </dev/null
does get --trim disk ONE.TXT
cmp out lines
does census disk
patch $(($(slot 2) + 11)) 64
refuses 1 "DISK ERROR #012" put --replace disk NORTH.TXT <lines

# ---- the date of a new file is today's, by the local time; east and west are 26 hours apart, so never on one day
fresh
[ "$(TZ=EAST-14 date +%d)" != "$(TZ=WEST+12 date +%d)" ] || fail "the zones of this test are none"
for zone in EAST-14 WEST+12 UTC0; do
    before=$(TZ=$zone date +%m-%d-%y)
    TZ=$zone does put --replace disk TODAY.TXT <lines
    after=$(TZ=$zone date +%m-%d-%y)
    does list disk
    grep TODAY.TXT out | grep -qF -e "$before" -e "$after" || fail "TZ=$zone: not today: $(grep TODAY.TXT out)"
done

# ---- the main job, told step by step: a new diskette is filled, a file comes and goes on one that is in use, a damaged one is repaired
fresh
does demo disk new damaged
[ "$(sed -n 3p out)" = "new: blank, 3 tracks of 6 sectors, 4608 bytes, 12 sectors free" ] || fail "not formatted: $(cat out)"
shows "3 files in 20 slots; 0 deleted, 17 never used"
shows ".  free          0 sectors"
[ "$(grep -c ' bytes, as they were written$' out)" = 3 ] || fail "not read back: $(cat out)"
shows "02:15 CREW AT AMPLIFIER 14"
[ "$(grep -c 'NIGHT.TXT' out)" = 5 ] || fail "NIGHT.TXT is not listed, drawn and gone again: $(cat out)"
shows "damaged: DAMAGED, 2 findings: DISK ERROR #046: a sector is in no chain, or in two"
[ "$(grep -c 'cut from 2 to 1 sector: ' out)" = 2 ] || fail "not told before and at the repair: $(cat out)"
shows "damaged: repaired; the old image is damaged.before"
[ "$(tail -n 1 out)" = ".  free          20 sectors" ] || fail "not found again: $(tail -n 1 out)"
does check damaged
ends 1 "DISK ERROR #046" census damaged.before
does list disk
hides NIGHT.TXT
does check disk
does check new
shows "new: clean, 3 files, 12 of 12 sectors used, 0 free"
does get --trim new WEST.TXT
[ "$(wc -c <out)" = 200 ] || fail "WEST.TXT has $(wc -c <out) bytes"
[ "$(head -n 1 out)" = "00:00 WEST AMPLIFIER 1 LEVEL LOW" ] || fail "WEST.TXT begins with $(head -n 1 out)"
cp new new.before
refuses 3 "flexbox: new: it is there already; demo needs a NEW that is not there yet" demo disk new other
cmp new new.before
refuses 3 "flexbox: damaged: it is there already; demo needs a DAMAGED that is not there yet" demo disk other damaged
[ ! -e other ] || fail "a refused demo made a file"
does format --tracks 2 --sectors 5 empty
does demo empty other another
[ "$(tail -n 1 out)" = "It has no two files that could share a sector, so no repair is shown." ] || fail "it says: $(tail -n 1 out)"
[ ! -e another ] || fail "a copy was made for no accident"
ln -s nowhere link
for new in . /dev/null link disk; do
    refuses 3 "flexbox: $new: it is there already; demo needs a NEW that is not there yet" demo disk $new another
done
[ -L link ] && [ ! -e nowhere ] || fail "a link that leads nowhere was followed or replaced"
