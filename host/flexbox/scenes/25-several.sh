# Several images: check and info of many, and the difference of two.

# prints LINE..: the last command printed these lines and no other
prints() { [ "$(cat out)" = "$(printf '%s\n' "$@")" ] || fail "it says: $(cat out)"; }

# ---- check and info: a line each, in the order of the words, and the highest status
fresh
cp disk one
cp disk two
does check one two
prints "one: clean, 3 files, 13 of 32 sectors used, 19 free" "two: clean, 3 files, 13 of 32 sectors used, 19 free"
patch 546 1
mv disk damaged
head -c 1000 one >short
ends 1 "" check one damaged two
prints "one: clean, 3 files, 13 of 32 sectors used, 19 free" "damaged: DAMAGED, 2 findings: DISK ERROR #044: free chain not right; 1 deleted or damaged slot with sectors in no chain" \
    "two: clean, 3 files, 13 of 32 sectors used, 19 free"
[ ! -s err ] || fail "wrote to standard error: $(cat err)"
ends 1 "DISK ERROR #041: not the image of a diskette, or no such shape (short, 1000 bytes; tracks 0 to 4 of 8 sectors, as it states, have 10240)" \
    check one short two
[ "$(wc -l <out)" = 2 ] || fail "not the other two: $(cat out)"
ends 3 "flexbox: none: No such file" check damaged none one
[ "$(wc -l <out)" = 2 ] || fail "not the other two: $(cat out)"
ends 3 "" check --json one damaged none short
[ "$(cut -d , -f 1,2 out | tr '\n' ' ')" = '{"image":"one","verdict":0 {"image":"damaged","verdict":44 {"image":"none","verdict":null {"image":"short","verdict":41 ' ] ||
    fail "not an object each: $(cat out)"
exec 7<two
flock -x 7
ends 4 "another program" check --wait 0 one none two
exec 7<&-
does info one damaged
prints "one: tracks 0 to 4 of 8 sectors, label none, volume 0, made no date, 3 files, 19 sectors free, census accepted" \
    "damaged: tracks 0 to 4 of 8 sectors, label none, volume 0, made no date, 3 files, 1 sector free, census 044 free chain not right"
ends 3 "flexbox: none: No such file" info none one
does info --json one two
[ "$(wc -l <out)" = 2 ] || fail "not an object each: $(cat out)"

# ---- diff: the same, or what differs
does diff one two
prints "one and two are the same, byte for byte"
does diff --json one two
shows '{"image":"one","other":"two","is_same":true,"is_one_shape":true,"files":[],"slots":[],"sectors":[],"free_chain":[['
does delete two SOUTH.TXT
does put two NEW.TXT <<<new
does rename two POWER.TXT WATTS.TXT
ends 1 "" diff one two
prints "SOUTH.TXT: only in one" "POWER.TXT: only in one" "NEW.TXT: only in two" "WATTS.TXT: only in two" \
    "free chain: 19 sectors from 2,8 to 1,2 in one, 24 sectors from 3,1 to 2,5 in two" "slots that differ: 1, 3, 4" \
    "sectors that differ: 0,3; 0,5; 1,2; 2,8"
cp one disk
patch $(($(sector 1 6) + 4 + 7)) 33
patch $(($(slot 3) + 11)) 64
patch $(($(slot 4) + 21)) 1
ends 1 "" diff one disk
prints "NORTH.TXT: other bytes from byte 259 on" "SOUTH.TXT: another protection" "POWER.TXT: another date" \
    "slots that differ: 3, 4" "sectors that differ: 0,5; 1,6"
ends 1 "" diff --json one disk
shows '"files":[{"name":"NORTH.TXT","slot":[2,2],"sectors":[5,5],"differs_from":259,"otherwise":[]},'
shows '"slots":[3,4],"sectors":[[0,5],[1,6]],'
if command -v python3 >/dev/null; then
    python3 -c 'import json, sys; assert not json.load(sys.stdin)["is_same"]' <out || fail "no JSON: $(cat out)"
fi
seq 1 300 >lines
cp one disk
does put --replace disk POWER.TXT=lines
ends 1 "" diff one disk
grep -qE '^POWER.TXT: 2 and 5 sectors, other bytes from byte [0-9]+ on, another date, another place, another slot$' out ||
    fail "it says: $(cat out)"
# ---- of another shape the files alone; with a directory that is not right no files
rm disk
does format disk
does get one SOUTH.TXT=south
does put disk SOUTH.TXT=south
ends 1 "" diff one disk
shows "shape: tracks 0 to 4 of 8 sectors in one, tracks 0 to 34 of 10 sectors in disk"
shows "NORTH.TXT: only in one"
hides "sectors that differ"
ends 1 "" diff --json one disk
shows '"is_one_shape":false'
shows '"slots":null,"sectors":null'
cp one disk
patch 1024 0 4
ends 1 "" diff one disk
shows "disk: its slots can't be listed, so its files are not compared"
shows "sectors that differ: 0,5"
hides "only in"
refuses 1 "DISK ERROR #041" diff one short
refuses 3 "flexbox: none: No such file" diff one none
refuses 3 "flexbox: none: No such file" diff none one
