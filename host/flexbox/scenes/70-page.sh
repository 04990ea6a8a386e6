# The page that `report` makes: what it says of each verdict and what it marks; then in a browser, where there is one.

# opens CELLS TEXT: the page opens in Chromium without a word on its console, and has so many cells and this text
opens() {
    checks=$((checks + 1))
    HOME=$PWD timeout 180 chromium --headless --no-sandbox --disable-gpu --disable-dev-shm-usage --no-first-run \
        --user-data-dir="$PWD/browser" --enable-logging=stderr --dump-dom "file://$PWD/page.html" >dom 2>console ||
        fail "Chromium could not open the page: $(tail -n 3 console)"
    ! grep CONSOLE console || fail "the page has errors"
    [ "$(grep -o '<g class="cell' dom | wc -l)" = "$1" ] || fail "not $1 cells but $(grep -o '<g class="cell' dom | wc -l)"
    grep -qF -- "$2" dom || fail "not on the page: $2"
}

fresh
does report disk
mv out page.html
cmp disk "$demo"
[ "$(grep -c '<g class="cell' page.html)" = 40 ] || fail "the page has not one cell for each sector"
! grep -qi -e '<script' -e 'https\?:' -e 'url(' page.html || fail "the page asks for something from elsewhere"
for fact in "<dt>File</dt><dd>10240 bytes</dd>" "<dt>flexbox</dt><dd>$("${flexbox[@]}" --version | sed 's/flexbox //; s/,.*//')</dd>" \
    "There is nothing to repair."; do
    grep -qF -- "$fact" page.html || fail "not on the page: $fact"
done
before=$(date +"%Y-%m-%d %H:%M")
does report disk
after=$(date +"%Y-%m-%d %H:%M")
grep -qF -e "<dt>Looked at</dt><dd>$before</dd>" -e "<dt>Looked at</dt><dd>$after</dd>" out || fail "not looked at now"
refuses 3 "nowhere" report nowhere
head -c 1000 disk >short
refuses 1 "DISK ERROR #016" report short

# ---- what files are protected from is told in words
patch $(($(slot 2) + 11)) 224
patch $(($(slot 3) + 11)) 32
does report disk
shows "<td>write, delete, read</td>"
shows "<td>read</td>"

# marked: the sectors that the page in 'out' marks as damaged
marked() {
    awk 'match($0, /id="c-[0-9]+-[0-9]+"/) { at = substr($0, RSTART + 6, RLENGTH - 7) } /class="damage"/ { print at }' out |
        tr '\n' ' '
}

# tells NUMBER MEANING FINDING SECTOR..: of this diskette, too, there is a page; it says in words what the census says and where the
# rule is broken, has a cell for each sector, and marks these and no other
tells() {
    local number=$1 meaning=$2 finding=$3
    shift 3
    ends 0 "" report disk
    [ ! -s err ] || fail "the page of a damaged diskette: $(cat err)"
    shows "<strong>Damaged</strong> The census refuses it: DISK ERROR #0$number, $meaning."
    grep -qE "<li class=\"broken\"><b>✗</b> [^<]* <small>$number</small><ul><li>(<a href=\"#c-[0-9]*-[0-9]*\">)?$finding" out ||
        fail "the page does not say at rule $number: $finding"
    [ "$(grep -c '<g class="cell' out)" = 40 ] || fail "the page for $number has not one cell for each sector"
    [ "$(marked)" = "$* " ] || fail "the page for $number marks $(marked)"
}

patch 1024 0 4
tells 42 "directory not right" "directory: its sector 0,5 links to 0,4, which is neither on track 0" 0-5
shows "It can't be listed."
fresh
patch "$(slot 3)" 78 79 82 84 72
tells 43 "two files of one name" "NORTH.TXT .* and slot 3 have one name" 0-5
fresh
patch 543 1 1
tells 44 "free chain not right" "the free chain: sector 19 of 19 is at 1,2, but its stated end is 1,1" 1-2
fresh
patch "$(sector 2 4)" 2 6
tells 45 "chain of a file not right" "NORTH.TXT .*: runs on: sector 5 of 5, at 2,4, links to 2,6" 2-4
fresh
patch "$(sector 2 2)" 2 7
patch $(($(slot 2) + 15)) 2 7
tells 46 "a sector is in no chain, or in two" "sector 2,7 is held by NORTH.TXT .* and by POWER.TXT" 2-4 2-7

shows "<li>NORTH.TXT: kept whole, 5 sectors; what stands where it shared a sector may be another&#39;s</li>"
shows "Would be lost: up to 1 sector of 1 file, and 1 written sector in no chain."
shows "<code>flexbox repair disk</code>"

# ---- what has no shape has no page
fresh
printf x >>disk
refuses 1 "DISK ERROR #016: not the image of a diskette" report disk

fresh
if command -v chromium >/dev/null; then
    opens 40 "<strong>Sound</strong>"
    patch "$(sector 2 2)" 2 7
    patch $(($(slot 2) + 15)) 2 7
    mv disk '<b>disk'
    does report '<b>disk'
    mv out page.html
    opens 40 "<strong>Damaged</strong>"
    grep -qF 'class="damage"' dom || fail "no damage is marked"
    grep -qF '<h1>&lt;b&gt;disk</h1>' dom || fail "the name of the image is not shown as it is"
    # ---- on a narrow screen the state of each file is in view, and the page itself does not scroll sideways; on a wide one map and
    # directory are beside each other. The page has no script: another page looks at it in a frame of that width
    # measured WIDTH: what the frame says, "state's right end, page's width, top of map, top of directory"
    measured() {
        sed "s/<meta http-equiv[^>]*>//" page.html >plain.html
        printf '%s' '<iframe id=f style="border:0;width:'"$1"'px;height:900px" src=plain.html></iframe><script>onload = () => {
            const d = f.contentDocument, r = s => d.querySelector(s).getBoundingClientRect();
            document.title = [r("td.broken").right, d.documentElement.scrollWidth, r(".map").top, r(".files").top].map(Math.round).join(" ") }</script>' >frame.html
        HOME=$PWD timeout 180 chromium --headless --no-sandbox --disable-gpu --disable-dev-shm-usage --no-first-run --allow-file-access-from-files \
            --user-data-dir="$PWD/browser" --virtual-time-budget=5000 --dump-dom "file://$PWD/frame.html" 2>console | sed -n 's/.*<title>\([0-9 ]*\)<.*/\1/p'
    }
    read -r state width map files < <(measured 500) || fail "Chromium says nothing of a narrow page"
    [ "$state" -le 500 ] && [ "$width" -le 500 ] && [ "$files" -gt "$map" ] || fail "at 500 px: $state $width $map $files"
    read -r state width map files < <(measured 1400) || fail "Chromium says nothing of a wide page"
    [ "$files" = "$map" ] || fail "at 1400 px the directory is not beside the map: $state $width $map $files"
    checks=$((checks + 2))
else
    echo "flexbox: no Chromium here (Debian's package chromium): the page was not opened in a browser"
fi
