# Salvage: all that can be read of a damaged image, or of what is none, goes to a folder, and a list says what is whole.

# salvages STATUS ARGUMENT..: of 'disk' to a new folder 'saved'
salvages() {
    local status=$1
    shift
    rm -rf saved
    ends "$status" "" salvage "$@" disk saved
    [ ! -s err ] || fail "wrote to standard error: $(cat err)"
}
# has NAME [BYTES]: it is in the folder as it is on the demo diskette, or only its first bytes are
has() {
    "${flexbox[@]}" get "$demo" "$1" >was
    if [ $# = 1 ]; then cmp was "saved/$1"; else cmp <(head -c "$2" was) "saved/$1"; fi
}
# holds NAME..: the folder has these files and no other
holds() { [ "$(ls -A saved | tr '\n' ' ')" = "$* " ] || fail "the folder has $(ls -A saved | tr '\n' ' ')"; }

# ---- of a sound diskette every file, and nothing else; a read-protected one too
fresh
patch $(($(slot 3) + 11)) 32
salvages 0
holds NORTH.TXT POWER.TXT SOUTH.TXT
for name in NORTH.TXT POWER.TXT; do has $name; done
shows "  NORTH.TXT: slot 2, at 0,5 byte 40: 5 of 5 sectors: whole"
shows "  SOUTH.TXT: slot 3, at 0,5 byte 64: 6 of 6 sectors: whole, read-protected"
[ "$(tail -n 1 out)" = "disk: 3 files in saved, 3 of them whole; 0 chains in no file" ] || fail "it says: $(tail -n 1 out)"
fresh
salvages 0 --deleted
holds NORTH.TXT POWER.TXT SOUTH.TXT _LD.TXT
shows "  _LD.TXT: a deleted slot at 0,5 byte 16: 2 of 2 sectors: whole"

# ---- a zeroed link: what is behind it is a lost chain, and together they are the file
fresh
patch "$(sector 1 6)" 0 0
salvages 1
holds LOST0001.DAT NORTH.TXT POWER.TXT SOUTH.TXT
has NORTH.TXT 504
cat saved/NORTH.TXT saved/LOST0001.DAT >both
"${flexbox[@]}" get "$demo" NORTH.TXT | cmp - both
shows "  NORTH.TXT: slot 2, at 0,5 byte 40: 2 of 5 sectors: cut"
shows "  LOST0001.DAT: in no file: 3 sectors from 1,8 to 2,4, the first is record 3"
shows "disk: 3 files in saved, 2 of them whole; 1 chain in no file"
salvages 1 --json
shows '"missing_sectors":0,"files":[{"file":"NORTH.TXT","is_written":true,"origin":"directory","slot":2,"directory_sector":[0,5],"displacement":40,"name":"NORTH.TXT","stated_sectors":5,"sectors":[[1,3],[1,6]],"first_record":1,"is_whole":false,"faults":["cut"]}'
shows '{"file":"LOST0001.DAT","is_written":true,"origin":"lost","slot":null,"directory_sector":null,"displacement":null,"name":null,"stated_sectors":null,"sectors":[[1,8],[2,2],[2,4]],"first_record":3,"is_whole":false,"faults":[]}'
if command -v python3 >/dev/null; then
    python3 -c 'import json, sys; assert len(json.load(sys.stdin)["files"]) == 4' <out || fail "no JSON: $(cat out)"
fi
fresh
patch "$(sector 1 6)" 9 9
salvages 1
shows "2 of 5 sectors: cut; the next link is 9,9"

# ---- shared sectors, and a chain that runs on
fresh
patch "$(sector 2 2)" 2 7
patch $(($(slot 2) + 15)) 2 7
salvages 1
shows "  NORTH.TXT: slot 2, at 0,5 byte 40: 5 of 5 sectors: shared, out of order"
shows "  POWER.TXT: slot 4, at 0,5 byte 88: 2 of 2 sectors: shared"
has POWER.TXT
has SOUTH.TXT
fresh
patch "$(sector 2 4)" 2 6
salvages 1
shows "  NORTH.TXT: slot 2, at 0,5 byte 40: 7 of 5 sectors: runs on, shared, out of order"
cat saved/POWER.TXT | cmp - <(tail -c 504 saved/NORTH.TXT)

# ---- what get does not give: a directory that is not right, files that it does not reach, two of one name, a name that no call takes
fresh
patch 1024 0 4
refuses 1 "DISK ERROR #005" get --force disk NORTH.TXT
salvages 0
for name in NORTH.TXT SOUTH.TXT POWER.TXT; do has $name; done
ends 2 "not repairable: 042" repair disk
says "flexbox salvage disk FOLDER saves what can be read"
fresh
patch "$(slot 3)" 78 79 82 84 72
salvages 0
holds NORTH.TXT NORTH.TXT-2 POWER.TXT
"${flexbox[@]}" get "$demo" SOUTH.TXT | cmp - saved/NORTH.TXT-2
patch "$(slot 4)" 47 46 46 47 1
salvages 0
holds NORTH.TXT NORTH.TXT-2 _____.TXT
rm disk
does format --tracks 4 --sectors 6 disk
for i in $(seq 12); do printf 'log %d\n' "$i" >"LOG$i.TXT"; done
does put --files disk LOG?.TXT LOG1?.TXT
patch 1024 0 0
salvages 0
[ "$(ls saved | wc -l)" = 12 ] || fail "not twelve files: $(ls saved)"
shows "  LOG12.TXT: a slot at 0,6 byte 40, which the directory does not reach: 1 of 1 sector: whole"
for i in $(seq 12); do head -c "$(wc -c <"LOG$i.TXT")" "saved/LOG$i.TXT" | cmp - "LOG$i.TXT"; done

# ---- what is no diskette by its length: a missing end is zeros, and told; a rest is not looked at
fresh
truncate -s $((20 * 256 + 100)) disk # up to 2,4, and a part of 2,5
refuses 1 "DISK ERROR #041: not the image of a diskette, or no such shape (disk, 5220 bytes; tracks 0 to 4 of 8 sectors, as it states, have 10240)" check disk
refuses 1 "5220 bytes; tracks 0 to 4 of 8 sectors, as it states, have 10240" list disk
refuses 1 "as it states, have 10240)" get --force disk NORTH.TXT
refuses 2 "not repairable: 041 not the image of a diskette, or no such shape: 5220 bytes" repair disk
says "flexbox salvage disk FOLDER saves what can be read"
salvages 1
shows "tracks 0 to 4 of 8 sectors have 10240 bytes, and the file has 5220: 20 sectors read as zeros"
shows "  NORTH.TXT: slot 2, at 0,5 byte 40: 5 of 5 sectors: whole"
shows "  POWER.TXT: slot 4, at 0,5 byte 88: 1 of 2 sectors: cut, out of order, missing"
has NORTH.TXT
salvages 1 --json
shows '"bytes":5220,"last_track":4,"sectors_per_track":8,"missing_sectors":20'
fresh
printf 'rest' >>disk
refuses 1 "10244 bytes; tracks 0 to 4 of 8 sectors, as it states, have 10240" check disk
salvages 0
shows "tracks 0 to 4 of 8 sectors have 10240 bytes, and the file has 10244: the rest was not looked at"
for name in NORTH.TXT SOUTH.TXT POWER.TXT; do has $name; done
truncate -s 1G disk
salvages 0
shows "and the file has more: the rest was not looked at"

# ---- a shape that is not stated rightly is given
fresh
patch 550 0 0
refuses 1 "10240 bytes; it states tracks 0 to 0 of 0 sectors, which no diskette has" check disk
rm -rf saved
refuses 2 "disk states no shape that a diskette can have; --shape M,S gives one; by its length it may be 1,20 or 3,10 or 4,8 or 7,5" salvage disk saved
[ ! -e saved ] || fail "a refused salvage made a folder"
for shape in 4 0,8 80,8 4,4 4,37 x,y ''; do
    refuses 2 "salvage: --shape takes M,S, the last track 1 to 79 and the sectors a track 5 to 36, not '$shape'" salvage --shape "$shape" disk saved
done
salvages 0 --shape 4,8
for name in NORTH.TXT SOUTH.TXT POWER.TXT; do has $name; done
head -c 100 "$demo" >disk
refuses 2 "disk states no shape" salvage disk saved
refuses 1 "100 bytes, too short for a diskette" check disk
salvages 1 --shape 34,10
[ -z "$(ls -A saved)" ] || fail "read of nothing: $(ls -A saved)"
shows "disk: 0 files in saved, 0 of them whole; 0 chains in no file"
head -c 50000 /dev/urandom >disk
rm -rf saved
checks=$((checks + 1))
status=0
limited "${flexbox[@]}" salvage --deleted --shape 34,10 disk saved >out 2>err || status=$?
[ "$status" = 1 ] || fail "status $status of what is no diskette at all: $(cat err)"

# ---- the folder is new or empty, and nothing is replaced
fresh
rm -rf saved
mkdir saved
ends 0 "" salvage disk saved
refuses 3 "; salvage needs a new folder or an empty one" salvage disk saved
says "flexbox: saved: it is not empty, it has "
refuses 3 "flexbox: disk: " salvage disk disk
refuses 3 "flexbox: nowhere/saved: No such file" salvage disk nowhere/saved
refuses 3 "nothing: No such file" salvage nothing other
[ ! -e other ] || fail "a refused salvage made a folder"
chmod 444 disk
rm -rf saved
ends 0 "" salvage disk saved
chmod 644 disk
if [ -c /dev/full ]; then
    rm -rf saved
    unprinted "flexbox: standard output: No space left" salvage disk saved
    has NORTH.TXT
fi
if [ -n "$witness" ]; then
    rm -rf saved
    witnessed WITNESS_FAIL=1 -- salvage disk saved
    [ "$status" = 3 ] || fail "status $status where a file can't be written"
    says "flexbox: saved/NORTH.TXT: not written: the new file could not be written beside it: No space left"
    shows "  NORTH.TXT, NOT WRITTEN: slot 2, at 0,5 byte 40: 5 of 5 sectors: whole"
    shows "disk: 2 files in saved, 2 of them whole; 0 chains in no file"
    holds POWER.TXT SOUTH.TXT
    rm -rf saved
    witnessed -- salvage disk saved
    uniq log | sed -n '4,9s/\.flexbox-[0-9]*-[0-9]*-[^ ]*\.new/NEW/; 4,9p' | tr '\n' ' ' >calls
    [ "$(cat calls)" = "open saved make 666 NEW write NEW sync NEW move NORTH.TXT sync saved " ] || fail "calls: $(cat log)"
fi
