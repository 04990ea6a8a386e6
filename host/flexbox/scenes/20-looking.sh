# info, dump, JSON, help and usage.

fresh
does info disk
shows "tracks 0 to 4 (M), 8 sectors a track (S)"
shows "19 sectors from 2,8 to 1,2"
shows "label    none"
patch 528 77 65 73 78 32 49
patch 539 1 2
patch 547 12 3 81
does info disk
shows "label    MAIN 1"
shows "volume   258"
shows "made     12-03-81"
does info --json disk
shows '"label":"MAIN 1","volume":258,"date":{"month":12,"day":3,"year":81},"free":19'

does dump disk 0,3
shows "20  02 00 13 0c 03 51 04 08"
does dump disk 1,3
shows "00  01 06 00 01"
refuses 1 "DISK ERROR #009" dump disk 5,1
refuses 1 "DISK ERROR #009" dump disk 0,0
refuses 2 "track,sector" dump disk 5
refuses 2 "track,sector" dump disk 1,256

# ---- JSON is JSON, whatever the image is called, wherever there is something to read it with
fresh
cp disk 'a "quoted"\name'
for command in list info check census; do
    does "$command" --json 'a "quoted"\name'
    if command -v python3 >/dev/null; then
        python3 -c 'import json, sys; assert json.load(sys.stdin)["image"] == sys.argv[1]' 'a "quoted"\name' <out ||
            fail "$command --json is no JSON: $(cat out)"
    fi
done
does list --json disk
shows '"slot":2,"directory_sector":[0,5],"displacement":40,"name":"NORTH.TXT","sectors":5,"start":[1,3],"end":[2,4]'
does census --json disk
shows '{"sector":[2,8],"owner":0}'
shows '{"sector":[1,6],"owner":2}'
for command in list info check census; do
    does "$command" --json disk
    [ "$(wc -l <out)" = 1 ] || fail "$command --json is not one line"
done

# ---- check has a pass for each rule of the census, and says that it is clean
does check disk
[ "$(grep -c '^Pass [1-5]: ' out)" = 5 ] || fail "not five passes: $(cat out)"
[ "$(tail -n 1 out)" = "disk: clean, 3 files, 13 of 32 sectors used, 19 free" ] || fail "the last line: $(tail -n 1 out)"

# ---- what is no diskette
head -c 1000 "$demo" >disk
refuses 1 "DISK ERROR #016" list disk
refuses 1 "DISK ERROR #041" census disk
ends 1 "DISK ERROR #041" census --json disk
shows '"verdict":41,"sectors":[]}'
refuses 1 "DISK ERROR #041" check disk
ends 1 "DISK ERROR #041" check --json disk
[ "$(cat out)" = '{"image":"disk","verdict":41,"meaning":"not the image of a diskette, or no such shape","files":null,"data_sectors":null,"free_sectors":null,"directory_sectors":null,"findings":[],"unreached":[],"left_behind":[]}' ] ||
    fail "check --json of what is no diskette: $(cat out)"
refuses 1 "DISK ERROR #016" info --json disk
refuses 1 "DISK ERROR #016" list --json disk
refuses 1 "DISK ERROR #041" put disk A.TXT <"$demo"
refuses 1 "DISK ERROR #041" put --force disk A.TXT <"$demo"
[ "$(wc -l <err)" = 1 ] || fail "--force goes on with what is no diskette: $(cat err)"
: >disk
refuses 1 "DISK ERROR #016" list disk
refuses 1 "DISK ERROR #041" census disk
fresh
printf x >>disk
refuses 1 "DISK ERROR #041" delete disk NORTH.TXT
rm disk
ends 3 "flexbox: disk: No such file" check --json disk
shows '{"image":"disk","verdict":null,"meaning":"disk: No such file or directory (os error 2)","files":null'
refuses 3 "disk" list disk
refuses 3 "disk" put disk A.TXT <"$demo"

# ---- help, and one line for a usage error
fresh
does help
shows "usage:"
does --version
grep -qx 'flexbox [0-9]*\.[0-9]*\.[0-9]*, flex [0-9]*\.[0-9]*\.[0-9]*' out || fail "the version: $(cat out)"
for command in list info check census get put delete undelete rename format repair salvage diff dump report demo; do
    does help "$command"
    shows "usage: flexbox $command "
    for word in --help -h; do
        does "$command" $word
        shows "usage: flexbox $command "
    done
done
does -h
shows "usage: flexbox COMMAND"
does help help
shows "usage: flexbox COMMAND"
does --help list
shows "usage: flexbox list "
refuses 2 "too many words; usage: flexbox help [COMMAND]" help list disk
refuses 2 "too many words" --version disk
refuses 2 "no command"
refuses 2 "no command 'erase'" erase disk
refuses 2 "no command 'erase'" help erase
refuses 2 "wrong number of words" list
refuses 2 "wrong number of words" list disk disk
refuses 2 "check: wrong number of words" check
refuses 2 "diff: wrong number of words" diff disk
refuses 2 "wrong number of words" rename disk NORTH.TXT
refuses 2 "no such option '--all'" get --all disk NORTH.TXT
refuses 2 "no such option '--force'" list --force disk
refuses 2 "number of seconds" list --wait soon disk
refuses 2 "at most 8 characters" get disk NINECHARS.TXT
refuses 2 "at most 3" delete disk A.TEXT
refuses 2 "standard input is empty" put disk A.TXT </dev/null

# ---- what can't be printed is a failure; a reader who has seen enough is none, but of get, where every byte counts
if [ -c /dev/full ]; then
    for command in list info check census report; do unprinted "flexbox: standard output: No space left" $command disk; done
    unprinted "flexbox: standard output: No space left" get disk NORTH.TXT
fi
# A standard output that is closed. An emulator may open a file of its own in its place.
if [ ${#flexbox[@]} = 1 ]; then
    for arguments in "list disk" "get disk NORTH.TXT" "check disk" "help"; do
        status=0
        # shellcheck disable=SC2086
        limited "${flexbox[@]}" $arguments >&- 2>err || status=$?
        checks=$((checks + 1))
        [ "$status" = 3 ] || fail "status $status where standard output is closed: $arguments"
        [ "$(cat err)" = "flexbox: standard output: it is closed" ] || fail "it says: $(cat err)"
    done
    # A change that prints nothing does not need one.
    limited "${flexbox[@]}" rename disk NORTH.TXT WEST.TXT >&- || fail "status $? of a rename where standard output is closed"
    checks=$((checks + 1))
    fresh
fi
# The reader is gone before the first byte: the FIFO is opened for both, and then for writing alone.
mkfifo gone
(
    exec 3<>gone
    exec >gone 3<&-
    limited "${flexbox[@]}" list disk 2>err
) || fail "status $? where nobody reads on: $(cat err)"
[ ! -s err ] || fail "said where nobody reads on: $(cat err)"
status=0
(
    exec 3<>gone
    exec >gone 3<&-
    limited "${flexbox[@]}" get disk NORTH.TXT 2>err
) || status=$?
[ "$status" = 3 ] || fail "status $status of get where nobody reads on"
says "flexbox: standard output: Broken pipe"
checks=$((checks + 2))
