# The directory grows: more files than track 0 has slots for; and what is said where there is neither a slot nor a sector.

# last_line TEXT: the last command ended its output so
last_line() { [ "$(tail -n 1 out)" = "$1" ] || fail "the last line: $(tail -n 1 out)"; }

# ---- 100 files on 35 tracks of 10 sectors, whose track 0 has 60 slots
mkdir many
for i in $(seq 1 100); do printf 'log of site %d\n' "$i" >"many/SITE-$i.LOG"; done
does format disk
does put --files disk many/SITE-*.LOG
does list disk
[ "$(grep -c 'SITE-[0-9]*\.LOG ' out)" = 100 ] || fail "not 100 files: $(cat out)"
last_line "100 files in 100 slots; 0 deleted, 0 never used"
does check disk
last_line "disk: clean, 100 files, 104 of 340 sectors used (4 by the directory), 236 free"
does info disk
shows "files    100 in 100 slots; the directory has taken 4 data sectors"
does info --json disk
shows '"data_sectors":340,"directory_sectors":4,'
shows '"files":100,"slots":100,"census":0'
does check --json disk
shows '"free_sectors":236,"directory_sectors":4'
mkdir back
(cd back && does get --trim --files ../disk $(cd ../many && ls))
checks=$((checks + 1))
for i in $(seq 1 100); do cmp "many/SITE-$i.LOG" "back/SITE-$i.LOG"; done

# ---- the picture and the page have a sign of their own for the sectors that the directory has taken
does census disk
shows "=  directory     4 sectors"
shows ".  free          236 sectors"
[ "$(sed -n '2,35p' out | tr -cd = | wc -c)" = 4 ] || fail "not four sectors of the directory: $(cat out)"
does census --json disk
[ "$(grep -o '"owner":65534}' out | wc -l)" = 4 ] || fail "not four sectors of the directory: $(cat out)"
does report disk
shows 'taken by the directory'
[ "$(grep -c '<g class="cell directory"' out)" = 4 ] || fail "the page has not four sectors of the directory"
shows 'taken by the directory, sector 4 of 4'

# ---- a file with its slot in such a sector: listed there, refused where its name is taken, renamed, deleted, and its slot used again
does list --json disk
grep -o '"slot":100,"directory_sector":\[[0-9]*,[0-9]*\],"displacement":232,"name":"[^"]*"' out >slot ||
    fail "slot 100 is not there: $(cat out)"
! grep -qF '"directory_sector":[0,' slot || fail "slot 100 is on track 0: $(cat slot)"
name=$(sed 's/.*"name":"//; s/"//' slot)
refuses 1 "DISK ERROR #003" put disk "$name" <"many/$name"
does rename disk "$name" LAST.LOG
does get --trim disk LAST.LOG
cmp out "many/$name"
does delete disk LAST.LOG
refuses 1 "DISK ERROR #004" get disk LAST.LOG
does put disk AGAIN.LOG <"many/$name"
does list disk
grep -qE '^ *100  AGAIN.LOG ' out || fail "not in slot 100: $(cat out)"
last_line "100 files in 100 slots; 0 deleted, 0 never used"
does put --replace disk AGAIN.LOG <"many/SITE-1.LOG"
does check disk

# ---- what it has taken it keeps
for i in $(seq 1 99); do
    limited "${flexbox[@]}" delete disk "SITE-$i.LOG" 2>err || [ "SITE-$i.LOG" = "$name" ] || fail "not deleted: $(cat err)"
done
checks=$((checks + 99))
does check disk
shows "(4 by the directory)"
does format --replace disk
does check disk
last_line "disk: clean, 0 files, 0 of 340 sectors used, 340 free"

# ---- no slot and no sector: the diskette is full. Three tracks of 5 sectors have ten slots and ten data sectors
does format --replace --tracks 3 --sectors 5 disk
does put --files disk many/SITE-1?.LOG
does check disk
last_line "disk: clean, 10 files, 10 of 10 sectors used, 0 free"
refuses 1 "DISK ERROR #007: diskette full (disk, NEW.LOG: 14 bytes need 1 sector and one for the directory, which has no slot left, and 0 are free)" \
    put disk NEW.LOG <many/SITE-1.LOG
refuses 1 "DISK ERROR #003" put disk SITE-10.LOG <many/SITE-1.LOG
does put --replace disk SITE-10.LOG <many/SITE-1.LOG
does delete disk SITE-19.LOG
does put disk NEW.LOG <many/SITE-1.LOG

# ---- no slot and one sector: the directory takes it, the file finds none, and nothing is saved
does format --replace --tracks 4 --sectors 5 disk
does put --files disk many/SITE-2?.LOG
does delete disk SITE-20.LOG
head -c 1200 /dev/zero | tr '\0' x >five
does put disk FIVE.LOG=five
does check disk
last_line "disk: clean, 10 files, 14 of 15 sectors used, 1 free"
refuses 1 "need 1 sector and one for the directory, which has no slot left, and 1 is free)" put disk NEW.LOG <many/SITE-1.LOG
does delete disk SITE-21.LOG
does put disk NEW.LOG <many/SITE-1.LOG
does check disk
last_line "disk: clean, 10 files, 14 of 15 sectors used, 1 free"

# ---- damage in such a sector: the directory ends in the middle, runs into a file, or its sector is free as well
does format --replace --tracks 4 --sectors 5 disk
does put --files disk many/SITE-3?.LOG many/SITE-40.LOG
does check disk
last_line "disk: clean, 11 files, 12 of 15 sectors used (1 by the directory), 3 free"
cp disk sound
at=$(((3 * 5 + 1 - 1) * 256)) # the sector 3,1, which it has taken
patch $at 9 9
ends 1 "" check disk
shows "42 directory: its sector 3,1 links to 9,9, which is neither on track 0 in sectors 5 to 5 nor a data sector"
refuses 1 "DISK ERROR #005" list disk
cp sound disk
patch $at 0 5
ends 1 "" check disk
shows "42 directory: its sector 3,1 links to 0,5, back to a sector before it"
cp sound disk
patch 541 3 1
patch 545 0 1
patch 543 3 1
ends 1 "" check disk
shows "46 sector 3,1 is held by the free chain and by the directory"
refuses 1 "DISK ERROR #046" put disk NEW.LOG <many/SITE-1.LOG
does report disk
shows '<g class="cell free directory" id="c-3-1">'
cp sound disk
patch $((4 * 256 + 16 + 13)) 3 1 3 1
ends 1 "" check disk
shows "46 sector 3,1 is held by the directory and by SITE-30.LOG (slot 1, at 0,5 byte 16)"
