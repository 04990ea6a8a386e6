# What flexbox does to the files of this machine: links, owners, modes, what is too large or no file at all.

printf 'bytes\n' >lines

# closed_folder [AS..]: an image in a folder where its user may make no file, or which he may not read; flexbox runs as that user
closed_folder() {
    # ---- who may not sync the folder does not change it
    "$@" mkdir closed
    "$@" cp "$demo" closed/disk
    chmod 644 closed/disk
    chmod 300 closed
    refuses 3 "flexbox: closed/disk: not changed: its folder can't be opened to be synced: Permission denied" put closed/disk NEW.TXT <lines
    refuses 3 "flexbox: closed/new: not made: its folder can't be opened to be synced: Permission denied" format closed/new

    # ---- who may make no new file there hears of the image, and not of a file that he does not know
    chmod 500 closed
    refuses 3 "flexbox: closed/disk: not changed: a new image can't be made in its folder: Permission denied" \
        put closed/disk NEW.TXT <lines
    refuses 3 "closed/disk: not changed, since the old image is not kept: a new image can't be made in its folder: Permission denied" \
        format --replace closed/disk
    refuses 3 "flexbox: closed/new: not made: a new image can't be made in its folder: Permission denied" format closed/new
    cmp closed/disk "$demo"
    [ "$(ls -A closed)" = disk ] || fail "made in a folder that can't be written: $(ls -A closed)"
    chmod 700 closed
    "$@" touch closed/there
    chmod 500 closed
    refuses 3 "closed/there: not replaced: a new file can't be made in its folder: Permission denied" \
        get --replace closed/disk NORTH.TXT=closed/there
    chmod 700 closed
}

# foretold TEXT PLACE: without --replace it is said why that would refuse what is there, and so it does
foretold() {
    refuses 3 "flexbox: $2: it is there already, and --replace would refuse it: $1" format "$2"
    refuses 3 "flexbox: $2: $1" format --replace "$2"
}

# ---- a link stays a link, the mode stays, and nothing is left behind
fresh
chmod 640 disk
ln -s disk link
does delete link NORTH.TXT
[ -L link ] || fail "the link was replaced"
[ "$(stat -c %a disk)" = 640 ] || fail "the mode changed"
does list disk
hides NORTH.TXT
fresh
refuses 3 "flexbox: link: it is there already; --replace would make a blank one, and keep this one beside it" format link
does format --replace link
[ -L link ] || fail "the link was replaced"
does check disk
shows "disk: clean, 0 files"

# ---- a link that leads nowhere is no place for a new image, and stays
rm disk
refuses 3 "flexbox: link: it is there already, and --replace would refuse it: a link that leads nowhere" format link
refuses 3 "flexbox: link: No such file" format --replace link
[ -L link ] && [ ! -e disk ] || fail "a link that leads nowhere was followed or replaced"
ln -sfn link link
foretold "Too many levels of symbolic links" link
rm link

# ---- the owner stays
if [ "$(id -u)" = 0 ]; then
    fresh
    chown 4321:8765 disk
    chmod 6775 disk # a change of the owner takes the first of these bits away
    does put disk NEW.TXT <lines
    [ "$(stat -c %u:%g:%a disk)" = 4321:8765:6775 ] || fail "owner and mode are now $(stat -c %u:%g:%a disk)"
    does format --replace disk
    [ "$(stat -c %u:%g:%a disk)" = 4321:8765:6775 ] || fail "owner and mode are now $(stat -c %u:%g:%a disk)"

    # ---- who can't keep the owner does not change the image
    other=(setpriv --reuid 4321 --regid 4321 --clear-groups)
    chmod 755 "$top"
    chmod 777 .
    if "${other[@]}" "${flexbox[@]}" --version >/dev/null 2>&1; then
        fresh
        chmod 666 disk
        touch out err
        chmod 666 out err
        flexbox=("${other[@]}" "${flexbox[@]}")
        refuses 3 "disk: its owner and mode can't be given to the new image" put disk NEW.TXT <lines
        chmod 644 disk
        refuses 3 "disk: Permission denied" put disk NEW.TXT <lines
        does list disk
        chmod 444 disk
        refuses 3 "write-protect tab" put disk NEW.TXT <lines

        closed_folder "${other[@]}"
        flexbox=("${flexbox[@]:${#other[@]}}")
    else
        echo "flexbox: another user can't run it here: an owner who can't be kept and a folder that can't be written were not tried"
    fi
else
    closed_folder
    echo "flexbox: not root: that another owner of an image is kept was not tried"
fi

# ---- a read-only file is a diskette with its write-protect tab, for root too
fresh
chmod 444 disk
refuses 3 "write-protect tab" put disk NEW.TXT <lines
refuses 3 "write-protect tab" delete disk NORTH.TXT
refuses 3 "write-protect tab" put --force disk NEW.TXT <lines
foretold "it has no write permission, which is a diskette's write-protect tab; not changed" disk
does list disk
does check disk
chmod 644 disk

# ---- get keeps owner and mode of a file that it replaces, and does not replace a read-only one; of several then none is written
echo old >there
chmod 4640 there
[ "$(id -u)" != 0 ] || chown 4321:8765 there
[ "$(id -u)" != 0 ] || chmod 4640 there
owner=$(stat -c %u:%g:%a there)
does get --replace disk NORTH.TXT=there
[ "$(stat -c %u:%g:%a there)" = "$owner" ] || fail "owner and mode were $owner, and are $(stat -c %u:%g:%a there)"
does get disk NORTH.TXT
cmp out there
echo old >there
chmod 444 there
refuses 3 "flexbox: there: it has no write permission; not replaced" get --replace disk SOUTH.TXT=south NORTH.TXT=there
[ "$(cat there)" = old ] && [ ! -e south ] || fail "a refused get has written"
ln -s there link
refuses 3 "flexbox: link: it has no write permission; not replaced" get --replace disk NORTH.TXT=link
rm -f there
for way in "" --replace; do
    # shellcheck disable=SC2086
    refuses 3 "flexbox: link: it is there already, a link that leads nowhere" get $way disk NORTH.TXT=link
done
[ -L link ] && [ ! -e there ] || fail "a link that leads nowhere was followed or replaced"
rm link

# ---- a second name of the same file would keep the old image
ln disk second
refuses 3 "2 hard links" put disk NEW.TXT <lines
foretold "it has 2 hard links, and a new file under one of its names would part them; not changed" disk
does get disk NORTH.TXT
rm second
does put disk NEW.TXT <lines

# ---- what never ends, or is too large, or is no regular file
refuses 3 "standard input: more than 737,280 bytes" put disk ZERO.TXT </dev/zero
refuses 3 "/dev/zero: more than 737,280 bytes" put disk ZERO.TXT=/dev/zero
refuses 3 "/dev/zero: not a regular file" list /dev/zero
refuses 3 "/dev/zero: not a regular file" put /dev/zero A.TXT <lines
mkfifo pipe
yes >pipe 2>/dev/null &
refuses 3 "standard input: more than 737,280 bytes" put disk YES.TXT <pipe
yes >pipe 2>/dev/null &
refuses 3 "pipe: more than 737,280 bytes" put disk YES.TXT=pipe
wait
cat lines >pipe &
does put disk PIPE.TXT <pipe
wait
does get --trim disk PIPE.TXT
cmp out lines
refuses 3 "pipe: not a regular file" list pipe
refuses 3 "pipe: not a regular file" put pipe A.TXT <lines
foretold "not a regular file" pipe
foretold "not a regular file" /dev/null
mkdir folder
refuses 3 "folder: not a regular file" list folder
refuses 3 "folder" put disk A.TXT=folder
foretold "not a regular file" folder
ln -s folder link
foretold "not a regular file" link
rm disk
truncate -s 200G huge
refuses 1 "DISK ERROR #016: not the image of a diskette, or drive not 0 (huge, more than 737,280 bytes)" list huge
refuses 1 "DISK ERROR #041" check huge
refuses 1 "DISK ERROR #041" put huge A.TXT <lines
rm huge

# ---- messages name the file that is meant, and a name of the greatest length is one
fresh
long=$(printf 'd%.0s' $(seq 255))
mv disk "$long"
does put "$long" NEW.TXT <lines
rm "$long"
does format "$long"
does put "$long" NEW.TXT <lines
refuses 3 "$long.before: the old image is not kept, nor changed: File name too long" format --replace "$long"
does check "$long"
shows ": clean, 1 file"
rm "$long"
refuses 3 "flexbox: ${long}d: File name too long" format "${long}d"

# ---- a new image has the mode of any new file; where it can't be, none is made
mkdir new
mask=$(umask)
umask 027
does format new/../disk
does format new/disk
umask "$mask"
[ "$(stat -c %a disk new/disk | uniq)" = 640 ] || fail "the modes are $(stat -c %a disk new/disk)"
refuses 3 "flexbox: nowhere/disk: not made: its folder can't be opened to be synced: No such file" format nowhere/disk
refuses 3 "flexbox: nowhere/disk: not made: its folder can't be opened to be synced: No such file" format --replace nowhere/disk
refuses 3 "flexbox: lines/disk: Not a directory" format lines/disk
refuses 3 "flexbox: nowhere/: not made: Not a directory" format nowhere/
refuses 3 "not made: No such file" format ""
[ ! -e nowhere ] || fail "a folder was made"
