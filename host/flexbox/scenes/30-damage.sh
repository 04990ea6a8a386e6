# Damaged diskettes: nothing changes them, what is wrong is said with its place, and a damaged file is not given as if it were sound.

printf 'bytes\n' >lines

# told NUMBER ARGUMENT..: refused, with what is wrong and where
told() {
    local number=$1
    shift
    refuses 1 "DISK ERROR #0$number" "$@"
    grep -q "^  $number .* [0-9]*,[0-9]" err || fail "not said where: $*: $(cat err)"
}

# unchanged NUMBER: no command changes the diskette, which the census refuses so
unchanged() {
    told "$1" put disk NEW.TXT <lines
    says "--force would change it"
    told "$1" put --replace disk NORTH.TXT <lines
    told "$1" delete disk POWER.TXT
    told "$1" rename disk POWER.TXT A.TXT
    told "$1" census disk
    ends 1 "" check disk
    shows "DAMAGED"
    shows "DISK ERROR #0$1"
}

# ---- the free chain begins in a file: a new file would overwrite it
fresh
patch 541 1 3
unchanged 44
ends 1 "" check disk
shows "44 the free chain: "
shows "46 5 sectors (1,3; 1,6; 1,8; 2,2; 2,4) are held by the free chain and by NORTH.TXT (slot 2, at 0,5 byte 40)"

# ---- two files of one name
fresh
patch "$(slot 3)" 78 79 82 84 72
unchanged 43
ends 1 "" check disk
shows "43 NORTH.TXT (slot 2, at 0,5 byte 40) and slot 3 have one name"
refuses 1 "DISK ERROR #043" get disk NORTH.TXT

# ---- two files share their last sector: a delete would free a sector of the other
fresh
patch "$(sector 2 2)" 2 7
patch $(($(slot 2) + 15)) 2 7
unchanged 46
ends 1 "" check disk
shows "46 sector 2,7 is held by NORTH.TXT (slot 2, at 0,5 byte 40) and by POWER.TXT (slot 4, at 0,5 byte 88)"
shows "46 sector 2,4 is in no chain"
ends 1 "" check --json disk
shows '"verdict":46'
shows '"number":46,"text":"sector 2,7 is held by'
shows '"slots":[2,4],"sectors":[[2,7]]'
ends 1 "DISK ERROR #046" census --json disk
shows '"verdict":46,"sectors":[]'
refuses 1 "DISK ERROR #046" get disk POWER.TXT
says "sector 2,7 is held by"

# ---- the free count, a start that is no address, a chain in a circle, the directory
fresh
patch 546 1
unchanged 44
fresh
patch $(($(slot 2) + 13)) 0 1
unchanged 45
refuses 1 "DISK ERROR #045" get disk NORTH.TXT
says "its start 0,1 is no data sector"
fresh
patch "$(sector 1 3)" 1 3
unchanged 45
refuses 1 "DISK ERROR #045" get disk NORTH.TXT
says "has no end"
fresh
patch $((4 * 256)) 0 4
unchanged 42
refuses 1 "DISK ERROR #005" list disk
refuses 1 "DISK ERROR #005" list --json disk
ends 1 "" check disk
shows "42 directory: its sector 0,5 links to 0,4, which is neither on track 0 in sectors 5 to 8 nor a data sector"
shows "the slots can't be listed: names, files and their sectors are not checked"

does info disk
shows "files    not known"
does info --json disk
shows '"files":null,"slots":null,"census":42'
ends 1 "" check --json disk
shows '"verdict":42,"meaning":"directory not right","files":null'

# ---- a chain that runs on into another file, or ends early, is no file to trust
fresh
patch "$(sector 2 4)" 2 6
refuses 1 "DISK ERROR #045" get disk NORTH.TXT
says "5 sectors to 2,4, and 7 were read, to 2,7"
refuses 1 "DISK ERROR #045" get disk NORTH.TXT=north
[ ! -e north ] || fail "a refused get made a file"
ends 1 "given all the same by --force" get --force disk NORTH.TXT
[ "$(wc -c <out)" = $((7 * 252)) ] || fail "--force did not give all bytes"
warns "damaged, but not in this file" get disk SOUTH.TXT

# ---- where nobody can be told, the work and the status are the same
if [ -c /dev/full ]; then
    cp out south
    "${flexbox[@]}" get disk SOUTH.TXT >out 2>/dev/full || fail "status $? where standard error is full"
    cmp out south
    status=0
    "${flexbox[@]}" put disk NEW.TXT <lines 2>/dev/full || status=$?
    [ "$status" = 1 ] || fail "status $status where standard error is full"
fi
fresh
patch "$(sector 1 6)" 0 0
refuses 1 "DISK ERROR #045" get disk NORTH.TXT
says "2 were read, to 1,6"
ends 1 "given all the same by --force" get --force disk NORTH.TXT
[ "$(wc -c <out)" = $((2 * 252)) ] || fail "--force did not give the bytes that are there"
fresh
patch $(($(slot 2) + 18)) 4
refuses 1 "DISK ERROR #045" get disk NORTH.TXT

# ---- --force changes a damaged diskette, and says so before and after
fresh
patch "$(sector 1 6)" 0 0
warns "damaged, and changed all the same by --force" put --force disk NEW.TXT <lines
says "saved by --force; its census: 045"
does list disk
shows NEW.TXT
warns "damaged, and changed all the same by --force" delete --force disk NORTH.TXT
warns "damaged, and changed all the same by --force" rename --force disk NEW.TXT OLD.TXT
warns "damaged, and changed all the same by --force" put --replace --force disk OLD.TXT <lines
does list disk
shows OLD.TXT
hides NORTH.TXT
fresh
does put --force disk NEW.TXT <lines

# ---- of a diskette with very many faults eight are told, and how many more there are: slots 1 to 9 are one file
fresh
for i in $(seq 1 9); do dd if="$demo" of=disk bs=1 skip="$(slot 2)" seek="$(slot "$i")" count=24 conv=notrunc status=none; done
refuses 1 "DISK ERROR #043" put disk NEW.TXT <lines
[ "$(grep -c '^  4' err)" = 8 ] || fail "not eight findings: $(cat err)"
says "  and 2 more: flexbox check disk"
cp disk "my disk"
refuses 1 "DISK ERROR #043" put "my disk" NEW.TXT <lines
says "  and 2 more: flexbox check 'my disk'"
says "flexbox: flexbox repair --dry-run 'my disk' says what a repair would do"
rm "my disk"
ends 1 "" check disk
shows "disk: DAMAGED, 10 findings: DISK ERROR #043"
shows "and by NORTH.TXT (slot 8, at 0,5 byte 184) and by 1 more"

# ---- a directory that is cut short: the files that vanish are named, repair asks before it frees their sectors, and with the link set again
# they are back. Six sectors a track: slots 11 and 12 are in 0,6
rm disk
does format --tracks 4 --sectors 6 disk
for i in $(seq 12); do printf 'log %d\n' "$i" >"LOG$i.TXT"; done
does put --files disk LOG?.TXT LOG1?.TXT
does check disk
hides "not reached"
does info disk
hides "beyond"
cp disk sound
patch 1024 0 0
ends 1 "" check disk
shows "46 2 sectors (2,5 to 2,6) are in no chain"
shows "  not reached by the directory: LOG11.TXT (at 0,6 byte 16), 1 sector from 2,5 to 2,5, 1 of them in no chain"
shows "  not reached by the directory: LOG12.TXT (at 0,6 byte 40), 1 sector from 2,6 to 2,6, 1 of them in no chain"
ends 1 "" check --json disk
shows '"unreached":[{"name":"LOG11.TXT","directory_sector":[0,6],"displacement":16,"sectors":1,"start":[2,5],"end":[2,5],"in_no_chain":1},'
does info disk
shows "beyond   in sectors of track 0 that the directory does not reach: LOG11.TXT, LOG12.TXT"
does info --json disk
shows '"unreached":["LOG11.TXT","LOG12.TXT"]'
ends 1 "" check sound disk
shows "disk: DAMAGED, 1 finding: DISK ERROR #046: a sector is in no chain, or in two; not reached by the directory: LOG11.TXT, LOG12.TXT"
[ "$(grep -c 'not reached' out)" = 1 ] && [ "$(wc -l <out)" = 2 ] || fail "not a line each: $(cat out)"
does info sound disk
shows "census 046 a sector is in no chain, or in two; not reached by the directory: LOG11.TXT, LOG12.TXT"
lost="2 files would lose up to 2 sectors: LOG11.TXT (not reached by the directory, 1 sector in no chain), LOG12.TXT (not"
ends 2 "not changed, since $lost" repair disk </dev/null
shows "not reached by the directory: LOG11.TXT"
shows "  lost: up to 2 sectors of 2 files"
patch 1024 0 6
cmp disk sound
patch 1024 0 0
ends 1 "" repair --dry-run disk
status=0
"${flexbox[@]}" repair --yes disk >out || status=$?
checks=$((checks + 1))
[ "$status" = 1 ] || fail "status $status after a repair"
does check disk
shows "not reached by the directory: LOG12.TXT (at 0,6 byte 40), 1 sector from 2,6 to 2,6, 0 of them in no chain"
shows "disk: clean, 10 files"
# Nothing more is lost by another repair, and it does not ask.
patch 543 1 1
status=0
"${flexbox[@]}" repair disk >out </dev/null || status=$?
checks=$((checks + 1))
[ "$status" = 1 ] || fail "status $status after a second repair: $(cat out)"
shows "not reached by the directory: LOG11.TXT"
cp sound disk
patch 1024 0 4
ends 1 "" check disk
shows "not reached by the directory: LOG11.TXT"
ends 2 "not repairable: 042" repair disk
shows "not reached by the directory: LOG11.TXT"

# ---- --force is told of only where it would help
fresh
patch "$(sector 1 6)" 9 9
for words in "undelete disk OLD.TXT" "delete --slot 4 disk" "rename --slot 4 disk NEW.TXT"; do
    refuses 1 "disk: not changed, since that could destroy sound files" $words
    ! grep -qF -- --force err || fail "--force is told of: $words: $(cat err)"
done
