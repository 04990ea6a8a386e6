# Blank diskettes: what format makes, which words it takes, and that a file which is there is not lost by it.

# none: a refused format has made no file
none() { [ ! -e disk ] || fail "a refused format made a file"; }

# ---- 35 tracks of 10 sectors without a label, made today by the local time
before=$(date +%m-%d-%y)
does format disk
after=$(date +%m-%d-%y)
[ "$(cat out)" = "disk: blank, 35 tracks of 10 sectors, 89600 bytes, 340 sectors free" ] || fail "it says: $(cat out)"
[ "$(stat -c %s disk)" = 89600 ] || fail "it has $(stat -c %s disk) bytes"
does info disk
shows "tracks 0 to 34 (M), 10 sectors a track (S): 350 sectors, 340 of them for files"
shows "label    none"
shows "volume   0"
grep -qx -e "made     $before" -e "made     $after" out || fail "not made today: $(cat out)"
shows "free     340 sectors from 1,1 to 34,10"
shows "files    0 in 60 slots"
shows "census   accepted"
for zone in EAST-14 WEST+12; do
    before=$(TZ=$zone date +%m-%d-%y)
    TZ=$zone does format --replace disk
    after=$(TZ=$zone date +%m-%d-%y)
    does info disk
    grep -qx -e "made     $before" -e "made     $after" out || fail "TZ=$zone: not made today: $(cat out)"
done

# ---- every option, in any place, and every byte of what is made
rm disk
does format --label "MAIN ~ 1" disk --date 12-3-1981 --tracks 3 --volume 258 --sectors 6
[ "$(cat out)" = "disk: blank, 3 tracks of 6 sectors, 4608 bytes, 12 sectors free" ] || fail "it says: $(cat out)"
mv disk made
truncate -s 4608 disk
patch 528 77 65 73 78 32 126 32 49 0 0 0 1 2 1 1 2 6 0 12 12 3 81 2 6
patch 1024 0 6
at=1536
for link in '1 2' '1 3' '1 4' '1 5' '1 6' '2 1' '2 2' '2 3' '2 4' '2 5' '2 6' '0 0'; do
    patch $at $link
    at=$((at + 256))
done
cmp disk made
does info disk
shows "label    MAIN ~ 1"
shows "volume   258"
shows "made     12-03-81"
for row in '--label:ELEVEN ~~ 1:label    ELEVEN ~~ 1' '--label::label    none' '--volume:65535:volume   65535' '--volume:0:volume   0' \
    '--date:2-29-00:made     02-29-00' '--date:02-29-2000:made     02-29-00' '--date:1-1-1900:made     01-01-00'; do
    IFS=: read -r option value line <<<"$row"
    does format --replace --tracks 2 --sectors 5 "$option" "$value" disk
    does info disk
    shows "$line"
done
does format --replace --label A --label B -- disk
does info disk
shows "label    B"
does format --replace --label=A=B --volume=7 disk
does info disk
shows "label    A=B"
shows "volume   7"
rm disk

# ---- wrong words: the limits are named, and no file is made
for tracks in 1 81 0 -1 '' x 35.0 65536 99999999999999999999; do
    refuses 2 "flexbox: format: --tracks takes a number of tracks from 2 to 80, not '$tracks'" format --tracks "$tracks" disk
    none
done
for sectors in 4 37 0 256 ten; do
    refuses 2 "flexbox: format: --sectors takes a number of sectors a track from 5 to 36, not '$sectors'" \
        format --sectors "$sectors" disk
    none
done
for volume in 65536 -1 one; do
    refuses 2 "flexbox: format: --volume takes a number from 0 to 65535, not '$volume'" format --volume "$volume" disk
    none
done
for date in 2-29-81 2-29-1900 13-1-81 0-1-81 4-31-81 1-1-1899 1-1-2100 12-3 12-3-8 12/3/81 today ''; do
    refuses 2 "flexbox: format: --date takes MONTH-DAY-YEAR, a day of the calendar with a year from 00 to 99 or from 1900 to 2099, not '$date'" \
        format --date "$date" disk
    none
done
for label in 'TWELVE ~~ 12' $'A\tB' $'A\nB' Köln $'\177' $'\377'; do
    refuses 2 "flexbox: format: --label takes at most eleven characters of printable ASCII, not '" format --label "$label" disk
    none
done
refuses 2 "format: no value follows '--date'" format disk --date
refuses 2 "format: no such option '--title=A'" format --title=A disk
refuses 2 "format: '--replace' takes no value" format --replace=yes disk
refuses 2 "format: --tracks takes a number of tracks from 2 to 80, not ''" format --tracks= disk
refuses 2 "format: no such option '--force'" format --force disk
refuses 2 "format: wrong number of words" format --label disk
refuses 2 "format: wrong number of words" format disk disk
none
fresh
refuses 2 "from 2 to 80" format --replace --tracks 81 disk

# ---- an image that is there stays, whatever it is; --replace replaces it
refuses 3 "flexbox: disk: it is there already; --replace would make a blank one, and keep this one beside it" format disk
: >disk
refuses 3 "disk: it is there already" format disk
fresh
chmod 640 disk
rm -f disk.before*
does format --replace disk
[ "$(cat out)" = "disk: blank, 35 tracks of 10 sectors, 89600 bytes, 340 sectors free
disk: the old image is disk.before" ] || fail "it says: $(cat out)"
[ "$(stat -c %a disk disk.before | uniq)" = 640 ] || fail "the mode changed"
cmp disk.before "$demo"
does format --replace disk
shows "disk: the old image is disk.before-2"
cmp disk.before "$demo"
rm disk.before*
truncate -s 737281 disk
refuses 3 "flexbox: disk: more than 737,280 bytes, so no diskette; not replaced" format --replace disk
[ ! -e disk.before ] || fail "a refused format kept an image"
truncate -s 737280 disk
does format --replace disk
[ "$(stat -c %s disk.before)" = 737280 ] || fail "kept with $(stat -c %s disk.before) bytes"
rm disk.before
does list disk
hides NORTH.TXT
rm disk
does format --replace --tracks 2 disk
shows "disk: blank, 2 tracks of 10 sectors, 5120 bytes, 10 sectors free"
head -c 1000 /dev/zero >disk
does format --replace disk
does check disk
fresh
patch 541 1 3
does format --replace disk
does check disk
fresh
patch $(($(slot 2) + 11)) 224
refuses 1 "DISK ERROR #012" delete disk NORTH.TXT
does format --replace disk
does check disk
shows "disk: clean, 0 files"

# ---- of the image that was there neither shape nor label nor number is kept
does format --replace --tracks 80 --sectors 36 --label BIG --volume 7 disk
does format --replace disk
shows "disk: blank, 35 tracks of 10 sectors, 89600 bytes, 340 sectors free"
does info disk
shows "label    none"
shows "volume   0"

# ---- where its line can't be printed, it is said all the same that the old image is gone, or a new one made
if [ -c /dev/full ]; then
    fresh
    unprinted "flexbox: disk: formatted, and the old image is disk.before" format --replace disk
    does check disk
    shows "disk: clean, 0 files"
    rm disk
    unprinted "flexbox: disk: formatted, but standard output: No space left" format disk
    does check disk
fi

# ---- the smallest and the largest are clean, and all the largest has can be filled and read back
for shape in 2x5:5 2x36:36 80x5:395 80x36:2844 40x18:702; do
    size=${shape%:*} free=${shape#*:}
    does format --replace --tracks "${size%x*}" --sectors "${size#*x}" disk
    does check disk
    [ "$(tail -n 1 out)" = "disk: clean, 0 files, 0 of $free sectors used, $free free" ] || fail "$size: $(tail -n 1 out)"
    does census disk
    shows ".  free          $free sectors"
    does list disk
    shows "0 files in $(((${size#*x} - 4) * 10)) slots; 0 deleted, $(((${size#*x} - 4) * 10)) never used"
    head -c $((free * 252 - 1)) /dev/zero | tr '\0' x >large
    does put disk LARGE.TXT=large
    refuses 1 "DISK ERROR #007" put disk MORE.TXT=large
    does get --trim disk LARGE.TXT
    cmp out large
    does check disk
    [ "$(tail -n 1 out)" = "disk: clean, 1 file, $free of $free sectors used, 0 free" ] || fail "$size: $(tail -n 1 out)"
    does delete disk LARGE.TXT
    does check disk
done

# ---- in the same way through a page, and with many files
does format --replace --tracks 5 --sectors 8 --label FULL disk
for i in $(seq 32); do echo "log $i" >"LOG$i.TXT"; done
does put --files disk LOG*.TXT
refuses 1 "DISK ERROR #007" put disk MORE.TXT=LOG1.TXT
does check disk
shows "disk: clean, 32 files, 32 of 32 sectors used, 0 free"
does get --trim --replace --files disk LOG7.TXT LOG32.TXT
[ "$(cat LOG7.TXT LOG32.TXT)" = "$(printf 'log 7\nlog 32')" ] || fail "not what was put: $(cat LOG7.TXT LOG32.TXT)"
does report disk
shows "FULL"

# ---- the old image is told of where the lines can't be printed
if [ -c /dev/full ]; then
    fresh
    rm -f disk.before*
    unprinted "disk: formatted, and the old image is disk.before, but standard output" format --replace disk
fi
