# Deleted files are brought back where their sectors are still free and in order; otherwise it is said why not, and nothing is changed.

seq 1 300 >lines

# ---- what was deleted is back, every byte of it and of the slot: the image is the same but for the free chain
fresh
for name in NORTH.TXT SOUTH.TXT POWER.TXT; do
    does get disk $name
    cp out was
    does list --json disk
    grep -o "{[^{]*\"name\":\"$name\"[^}]*}" out >slot
    does delete disk $name
    does undelete disk
    shows "  ?${name#?}"
    shows "can be brought back"
    does undelete disk $name
    [ ! -s out ] || fail "it says: $(cat out)"
    does get disk $name
    cmp out was
    does list --json disk
    grep -o "{[^{]*\"name\":\"$name\"[^}]*}" out | cmp - slot
    does check disk
    shows "disk: clean, 3 files, 13 of 32 sectors used, 19 free"
done
does undelete disk # its first file was deleted when it was made
[ "$(cat out)" = "   1  ?LD.TXT       can be brought back, 2 sectors" ] || fail "it says: $(cat out)"
does undelete disk OLD.TXT
does undelete disk
[ "$(cat out)" = "no slot is deleted" ] || fail "it says: $(cat out)"
does check disk
shows "disk: clean, 4 files, 15 of 32 sectors used, 17 free"
refuses 1 "POWERS.TXT: not brought back" undelete disk POWERS.TXT
says "no deleted slot has this name but for the first letter"

# ---- all of them, in any order, and on a diskette with no other free sector
for order in "A B C" "C B A" "B A C" "B C A"; do
    rm -f disk
    does format --tracks 2 --sectors 6 disk
    for name in A B C; do does put disk $name.TXT <<<"$name"; done
    head -c 700 /dev/zero | tr '\0' x >rest
    does put disk REST.TXT=rest
    does check disk
    shows "disk: clean, 4 files, 6 of 6 sectors used, 0 free"
    for name in $order; do does delete disk $name.TXT; done
    for name in A B C; do
        number=$(printf %d "'$name")
        does undelete --slot $((number - 64)) disk $name.TXT
    done
    does check disk
    shows "disk: clean, 4 files, 6 of 6 sectors used, 0 free"
    for name in A B C; do
        does get --trim disk $name.TXT
        [ "$(cat out)" = $name ] || fail "$name.TXT is $(cat out)"
    done
done

# ---- a delete overwrites the first letter: where several slots have the rest of the name, one is chosen by its number
does delete disk A.TXT
does delete disk B.TXT
refuses 1 "A.TXT: not brought back: several deleted slots have this name: 1, 2; --slot says which" undelete disk A.TXT
refuses 1 "A.TXT: not brought back: slot 3 is no deleted slot of the directory" undelete --slot 3 disk A.TXT
refuses 1 "slot 99 is no deleted slot of the directory" undelete --slot 99 disk A.TXT
refuses 1 "the deleted slot 1 has not this name but for the first letter" undelete --slot 1 disk AB.TXT
refuses 2 "undelete: --slot needs a name" undelete --slot 1 disk
refuses 2 "--slot takes a slot from 1 to 65535, not '0'" undelete --slot 0 disk A.TXT
does undelete --slot 2 disk B.TXT
does undelete disk A.TXT
does check disk

# ---- a sector that two deleted files had: X.TXT took that of B.TXT and the slot of A.TXT
rm -f disk
does format --tracks 2 --sectors 5 disk
for name in A B; do does put disk $name.TXT <<<$name$name$name$name; done
head -c 700 /dev/zero | tr '\0' x >rest
does put disk C.TXT=rest
does delete disk B.TXT
does delete disk A.TXT
does put disk X.TXT <<<XXXX
does delete disk X.TXT
does undelete disk
hides "can be brought back"
shows "   1  ?.TXT         can't be brought back: the deleted file of slot 2 had its sector 1,2, too"
refuses 1 "B.TXT: not brought back: the deleted file of slot 1 had its sector 1,2, too" undelete --slot 2 disk B.TXT

# ---- what is not free any more, or not in order
fresh
does delete disk NORTH.TXT
head -c $((20 * 252)) /dev/zero | tr '\0' x >large
does put disk NEW.TXT=large # all that was free before, and the first sector of NORTH.TXT
refuses 1 "NORTH.TXT: not brought back: its sector 1 of 5, at 1,3, is not free any more" undelete disk NORTH.TXT
# NORTH.TXT is in 1,3 1,6 .., SOUTH.TXT in 1,4 1,5 ..: a repair puts free sectors in rising order, and the links lead elsewhere then
fresh
does delete disk NORTH.TXT
does delete disk SOUTH.TXT
patch 546 1
status=0
"${flexbox[@]}" repair --yes disk >out || status=$?
checks=$((checks + 1))
[ "$status" = 1 ] || fail "status $status after a repair"
refuses 1 "its sector 2 of 5, at 1,4, has the record number" undelete disk NORTH.TXT
does undelete disk
shows "?ORTH.TXT     can't be brought back: its sector 2 of 5, at 1,4, has the record number"
fresh
does delete disk NORTH.TXT
patch $(($(sector 1 6) + 3)) 9
refuses 1 "its sector 2 of 5, at 1,6, has the record number 9" undelete disk NORTH.TXT
patch $(($(slot 2) + 19)) 1 # a random file: its sectors have other record numbers
does undelete disk NORTH.TXT
fresh
does delete disk NORTH.TXT
patch $(($(slot 2) + 15)) 2 2
refuses 1 "its sectors are no longer in order from 1,3 to 2,2" undelete disk NORTH.TXT
patch $(($(slot 2) + 17)) 0 0
refuses 1 "it has no sector" undelete disk NORTH.TXT

# ---- a name that is there, one that no call takes, and a damaged diskette
fresh
does delete disk NORTH.TXT
does put disk NORTH.TXT <lines
refuses 1 "DISK ERROR #003" undelete disk NORTH.TXT
refuses 1 "DISK ERROR #021" undelete disk 9ORTH.TXT
fresh
does delete disk NORTH.TXT
patch 546 1
refuses 1 "DISK ERROR #044" undelete disk NORTH.TXT
refuses 1 "DISK ERROR #044" undelete disk
refuses 2 "undelete: no such option '--force'" undelete --force disk NORTH.TXT
fresh
does delete disk NORTH.TXT
chmod 444 disk
refuses 3 "write-protect tab" undelete disk NORTH.TXT
does undelete disk
chmod 644 disk

# ---- a protected file, which a raw write marked, is protected again; another first letter is another name
patch $(($(slot 2) + 11)) 224
does undelete disk WORTH.TXT
does list disk
grep -q 'WORTH.TXT .*  WDR$' out || fail "not protected: $(cat out)"
