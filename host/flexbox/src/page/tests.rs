//! The page of a sound diskette and of one for each verdict: what it says in words, which sectors it marks, and that it has one
//! cell for each sector and nothing from elsewhere.

use super::*;
use crate::check;
use diskettes::offset;
use flex::Diskette;

/// Where the slots of A.TXT and B.TXT begin.
const SLOT_A: usize = 1024 + 16;
const SLOT_B: usize = SLOT_A + 24;

/// The page of a diskette with A.TXT in 1,1 and 1,2 and B.TXT in 1,3 to 1,5, after some bytes are stored; 1,6 to 2,6 are free.
fn made(name: &str, stores: &[(usize, &[u8])]) -> String {
    made_of(&[("A", 2), ("B", 3)], name, stores)
}

/// The same with these files, each of so many sectors.
fn made_of(files: &[(&str, usize)], name: &str, stores: &[(usize, &[u8])]) -> String {
    let mut diskette = Diskette::new(diskettes::blank(2, 6));
    for (file, sectors) in files {
        diskette.put(&file.parse().unwrap(), &vec![7; 252 * sectors], [1, 2, 3]).unwrap();
    }
    let mut image = diskette.image().to_vec();
    for (at, bytes) in stores {
        image[*at..at + bytes.len()].copy_from_slice(bytes);
    }
    page_of(name, image)
}

fn page_of(name: &str, image: Vec<u8>) -> String {
    let mut diskette = Diskette::new(image);
    let record = Record::read(&mut diskette).unwrap();
    let check = check::check(&mut diskette).unwrap();
    let repaired = check.verdict.err().map(|_| Repaired::of(&check, &diskette, &[]));
    let (image, time) = (diskette.image(), "2026-11-15 22:41");
    page(&Subject { name, record: &record, check: &check, repaired: repaired.as_ref(), image, time })
}

fn count(page: &str, what: &str) -> usize {
    page.matches(what).count()
}

/// What stands behind `before` up to `after`, each time.
fn between<'a>(page: &'a str, before: &str, after: &str) -> Vec<&'a str> {
    page.split(before).skip(1).map(|rest| rest.split(after).next().unwrap()).collect()
}

/// The cells, each from its address ("1-5") on.
fn cells(page: &str) -> Vec<(&str, &str)> {
    let cells = between(page, "<g class=\"cell", "</g>");
    cells.into_iter().map(|cell| (between(cell, "id=\"c-", "\"")[0], cell)).collect()
}

/// The addresses of the cells that are marked as damaged.
fn marked(page: &str) -> Vec<&str> {
    cells(page).into_iter().filter(|(_, cell)| cell.contains("class=\"damage\"")).map(|(at, _)| at).collect()
}

/// The rules of the census as the page shows them: kept, broken or unknown, by number.
fn rules(page: &str) -> String {
    let list = between(page, "<ul class=\"rules\">", "</section>")[0];
    let rules = between(list, "<li class=\"", "</small>").into_iter().map(|rule| {
        let class = rule.split('"').next().unwrap();
        let mark = between(rule, "<b>", "</b>")[0];
        assert_eq!(mark, ["✓", "✗", "?"][["kept", "broken", "unknown"].iter().position(|c| *c == class).unwrap()]);
        format!("{} {}", between(rule, "<small>", "<")[0], class)
    });
    rules.collect::<Vec<String>>().join(", ")
}

/// What is said below the broken rules, with the sector that each word leads to.
fn said(page: &str) -> Vec<String> {
    let list = between(page, "<ul class=\"rules\">", "</section>")[0];
    let items = between(list, "<ul>", "</ul>").into_iter().flat_map(|items| between(items, "<li>", "</li>"));
    items.map(str::to_string).collect()
}

/// The states in the directory's lines, which are the fourth cell of each: in view on a narrow screen, too.
fn states(page: &str) -> Vec<&str> {
    let rows = between(page, "<tr class=\"row", "</tr>").into_iter();
    rows.map(|row| between(row.split("<td").nth(4).unwrap(), ">", "<")[0]).collect()
}

/// The page of a damaged diskette: its verdict in words, and a cell for each sector all the same.
fn damaged(verdict: &str, stores: &[(usize, &[u8])]) -> String {
    let page = made("disk", stores);
    let words = format!("<strong>Damaged</strong> The census refuses it: DISK ERROR #0{}.", verdict);
    assert!(page.contains(&words), "{}: {}", verdict, between(&page, "<header>", "</header>")[0]);
    assert!(!page.contains("Sound"));
    let every: Vec<String> =
        (0..=2).flat_map(|track| (1..=6).map(move |sector| format!("{}-{}", track, sector))).collect();
    assert_eq!(cells(&page).into_iter().map(|(at, _)| at).collect::<Vec<_>>(), every);
    page
}

#[test]
fn there_is_a_cell_for_each_sector_and_nothing_from_elsewhere() {
    let page = made("<disk> & \"co\"", &[]);
    assert_eq!(count(&page, "<g class=\"cell"), 3 * 6);
    assert_eq!((count(&page, " slot1\""), count(&page, " slot2\"")), (2, 3));
    assert!(page.contains("&lt;disk&gt; &amp; &quot;co&quot;") && !page.contains("<disk>"));
    for foreign in ["<script", "http:", "https:", "url("] {
        assert!(!page.contains(foreign), "{}", foreign);
    }
}

#[test]
fn a_sound_diskette_keeps_every_rule() {
    let page = made("disk", &[]);
    assert!(page.contains(
        "<strong>Sound</strong> The census accepts it: every data sector is free, the directory&#39;s or in one file."
    ));
    assert!(!page.contains("Damaged"));
    assert_eq!(rules(&page), "42 kept, 43 kept, 44 kept, 45 kept, 46 kept");
    assert_eq!((said(&page).len(), marked(&page).len()), (0, 0));
    assert_eq!(states(&page), ["sound", "sound"]);
}

#[test]
fn verdict_42_the_directory() {
    let page = damaged("42, directory not right", &[(1024, &[0, 9])]);
    assert_eq!(rules(&page), "42 broken, 43 unknown, 44 kept, 45 unknown, 46 unknown");
    let text =
        "directory: its sector 0,5 links to 0,9, which is neither on track 0 in sectors 5 to 6 nor a data sector";
    assert_eq!(said(&page), [format!("<a href=\"#c-0-5\">{}</a>", text)]);
    assert_eq!(marked(&page), ["0-5"]);
    // Which files there are nobody knows, and the page does not say that there is none.
    assert!(page.contains("<dt>Files</dt><dd>not known</dd>") && page.contains("<p>It can't be listed.</p>"));
    assert_eq!(count(&page, "not free; its file is not known"), 5);
    assert_eq!((count(&page, "in no chain\n"), states(&page).len()), (0, 0));
}

#[test]
fn verdict_43_names() {
    let twins = damaged("43, two files of one name", &[(SLOT_B, b"A")]);
    assert_eq!(rules(&twins), "42 kept, 43 broken, 44 kept, 45 kept, 46 kept");
    let text = "A.TXT (slot 1, at 0,5 byte 16) and slot 2 have one name";
    assert_eq!(said(&twins), [format!("<a href=\"#c-0-5\">{}</a>", text)]);
    assert_eq!(marked(&twins), ["0-5"]);
    assert_eq!(states(&twins), ["damaged", "damaged"]);
}

#[test]
fn verdict_44_the_free_chain() {
    let page = damaged("44, free chain not right", &[(546, &[1])]);
    assert_eq!(rules(&page), "42 kept, 43 kept, 44 broken, 45 kept, 46 broken");
    let (chain, lost) = (
        "<a href=\"#c-1-6\">the free chain: sector 1 of 1 is at 1,6, but its stated end is 2,6</a>",
        "<a href=\"#c-2-1\">6 sectors (2,1 to 2,6) are in no chain</a>",
    );
    assert_eq!(said(&page), [chain, lost]);
    assert_eq!(marked(&page), ["1-6", "2-1", "2-2", "2-3", "2-4", "2-5", "2-6"]);
    assert_eq!(states(&page), ["sound", "sound"]);
}

#[test]
fn verdict_45_the_chain_of_a_file() {
    let page = damaged("45, chain of a file not right", &[(offset(6, 1, 1), &[0, 0])]);
    assert_eq!(rules(&page), "42 kept, 43 kept, 44 kept, 45 broken, 46 broken");
    let (chain, lost) = (
        "<a href=\"#c-1-1\">A.TXT (slot 1, at 0,5 byte 16): ends at 1,1, after 1 of 2 sectors</a>",
        "<a href=\"#c-1-2\">sector 1,2 is in no chain</a>",
    );
    assert_eq!(said(&page), [chain, lost]);
    assert_eq!(marked(&page), ["1-1", "1-2"]);
    assert_eq!(states(&page), ["damaged", "sound"]);
    // A start that is no sector is marked where it stands: in the slot's sector, or the information record.
    let start = damaged("45, chain of a file not right", &[(SLOT_A + 13, &[0, 1])]);
    let text = "A.TXT (slot 1, at 0,5 byte 16): its start 0,1 is no data sector; it states 2 sectors";
    assert_eq!(said(&start)[0], format!("<a href=\"#c-0-5\">{}</a>", text));
    assert_eq!(marked(&start), ["0-5", "1-1", "1-2"]);
    let free = damaged("44, free chain not right", &[(545, &[0, 0])]);
    assert_eq!(marked(&free)[..2], ["0-3", "1-6"]);
}

#[test]
fn verdict_46_a_shared_and_a_lost_sector() {
    let page = damaged("46, a sector is in no chain, or in two", &[(offset(6, 1, 1), &[1, 5]), (SLOT_A + 15, &[1, 5])]);
    assert_eq!(rules(&page), "42 kept, 43 kept, 44 kept, 45 kept, 46 broken");
    let owners = "A.TXT (slot 1, at 0,5 byte 16) and by B.TXT (slot 2, at 0,5 byte 40)";
    let shared = format!("<a href=\"#c-1-5\">sector 1,5 is held by {}</a>", owners);
    assert_eq!(said(&page), [shared, "<a href=\"#c-1-2\">sector 1,2 is in no chain</a>".to_string()]);
    assert_eq!(marked(&page), ["1-2", "1-5"]);
    assert_eq!(states(&page), ["damaged", "damaged"]);
    let both = cells(&page).into_iter().find(|(at, _)| *at == "1-5").unwrap().1;
    assert!(both.starts_with(" slot1 slot2\""), "{}", both);
    assert!(both.contains(
        "sector 1,5\nA.TXT, sector 2 of 2\nB.TXT, sector 3 of 3\nlinks to 0,0\ndamaged: sector 1,5 is held by"
    ));
}

#[test]
fn sectors_that_the_directory_has_taken_are_a_kind_of_their_own() {
    // Four files, so that the fourth letter is a file's.
    let files = [("A", 2), ("B", 1), ("C", 1), ("D", 1)];
    let stores: [(usize, &[u8]); 4] =
        [(offset(6, 0, 6), &[1, 6]), (offset(6, 1, 6), &[0, 0]), (541, &[2, 1]), (546, &[6])];
    let page = made_of(&files, "disk", &stores);
    assert!(page.contains("<strong>Sound</strong>"), "{}", between(&page, "<header>", "</header>")[0]);
    assert!(page.contains("<span class=\"key system\">=</span> directory and system"));
    assert!(page.contains("<span class=\"key directory\">=</span> taken by the directory"));
    let taken: Vec<_> = cells(&page).into_iter().filter(|(_, cell)| cell.starts_with(" directory\"")).collect();
    assert_eq!(taken.iter().map(|(at, _)| *at).collect::<Vec<_>>(), ["1-6"]);
    assert!(taken[0].1.contains("sector 1,6\ntaken by the directory, sector 1 of 1\nlinks to 0,0"), "{}", taken[0].1);
    assert!(taken[0].1.contains("fill:var(--directory)"));
    let with = |sign: &str| -> Vec<&str> {
        let sign = format!(">{}</text>", sign);
        cells(&page).into_iter().filter(|(_, cell)| cell.contains(&sign)).map(|(at, _)| at).collect()
    };
    assert_eq!(with("="), ["0-5", "0-6", "1-6"]);
    assert_eq!(with("D"), ["1-5"]);
}

#[test]
fn time_version_and_length_are_told() {
    let page = made("disk", &[]);
    for fact in ["<dt>Looked at</dt><dd>2026-11-15 22:41</dd>", "<dt>File</dt><dd>4608 bytes</dd>"] {
        assert!(page.contains(fact), "{}", fact);
    }
    assert!(page.contains(&format!("<dt>flexbox</dt><dd>{}</dd>", env!("CARGO_PKG_VERSION"))));
}

/// What stands in the section on repair, without its heading.
fn repair(page: &str) -> &str {
    between(page, "<h2>Repair</h2>\n", "</section>")[0]
}

#[test]
fn what_a_repair_would_do_and_the_next_command_are_told() {
    assert_eq!(repair(&made("disk", &[])), "<p>There is nothing to repair.</p>\n");
    let cut = made("my <disk>", &[(offset(6, 1, 1), &[0, 0])]);
    let cut = repair(&cut);
    assert!(cut.starts_with("<p>A repair leaves 1 of 2 files as they are, and 8 sectors free."), "{}", cut);
    assert!(cut.contains("<strong class=\"broken\">Would be lost: up to 1 sector of 1 file.</strong>"), "{}", cut);
    assert!(cut.contains("<li>A.TXT: cut from 2 to 1 sector: it ends there</li>"), "{}", cut);
    assert!(cut.contains("Then repair: <code>flexbox repair &#39;my &lt;disk&gt;&#39;</code>"), "{}", cut);
    let lost = made("disk", &[(1024, &[0, 9])]);
    assert!(repair(&lost).starts_with("<p>It can't be repaired: 042 directory not right.</p>"), "{}", repair(&lost));
    assert!(repair(&lost).ends_with("<code>flexbox salvage disk FOLDER</code></p>\n"), "{}", repair(&lost));
    let twins = made("disk", &[(SLOT_B, b"A")]);
    assert!(repair(&twins).contains("<code>flexbox rename --slot 1 disk NEW.EXT</code>"), "{}", repair(&twins));
}

#[test]
fn files_that_the_directory_does_not_reach_are_on_the_page() {
    let slot = made("disk", &[(offset(6, 0, 6) + 16, b"LOST\0\0\0\0TXT\0\0\x01\x03\x01\x05\0\x03"), (1024, &[0, 0])]);
    assert!(slot.contains("Not reached by the directory: LOST.TXT (at 0,6 byte 16), 3 sectors from 1,3 to 1,5"));
}

/// A file's start, end and size, by its number.
type File = fn(usize) -> ([u8; 2], [u8; 2], u16);

/// The largest directory that there is, and the one in which the most files share a sector, or all of many sectors.
#[test]
fn a_page_of_very_many_files_is_no_longer_than_can_be_read() {
    let none = |_| ([0, 0], [0, 0], 0);
    let shared = |_| ([41, 1], [41, 1], 1);
    let long = |_| ([41, 1], [79, 36], 1404);
    let kinds: [(usize, File); 3] = [(2844, none), (1440, shared), (1440, long)];
    let mut images = kinds.map(|(taken, file)| diskettes::crowded(79, 36, taken, file));
    // In the last one all files go the same way to the end.
    let shape = flex::Shape { last: 79, per: 36 };
    for number in 1440..2843 {
        let (at, next) = (shape.offset(shape.address(number)), shape.address(number + 1));
        images[2][at..at + 2].copy_from_slice(&[next.track, next.sector]);
    }
    // And one where all files of the largest have one name.
    let mut twins = images[0].clone();
    for sector in (4..80 * 36).map(|sector| sector * 256) {
        (0..10).for_each(|slot| twins[sector + 16 + 24 * slot..][..11].copy_from_slice(b"SAMENAMETXT"));
    }
    let images = images.into_iter().chain([twins]);
    for (image, files) in images.zip([28_760, 14_720, 14_720, 28_760]) {
        let page = page_of("disk", image);
        assert!(page.len() < 3_000_000, "{} bytes", page.len());
        assert!(page.contains(&format!("<dt>Files</dt><dd>{}</dd>", files)), "{}", files);
        assert_eq!(count(&page, "<g class=\"cell"), 80 * 36);
        assert_eq!(states(&page).len(), 2_000);
        assert!(page.contains(&format!("And {} more files", files - 2_000)));
    }
}

#[test]
fn whatever_the_bytes_are_there_is_a_page() {
    let mut number = 1u32;
    for _ in 0..300 {
        let mut image = vec![0; 3 * 6 * 256];
        for byte in image.iter_mut() {
            number = number.wrapping_mul(1_664_525).wrapping_add(1_013_904_223);
            // Small numbers are addresses more often than large ones.
            *byte = (number >> 24) as u8 & (number >> 16) as u8 & 7;
        }
        image[4 * 256..4 * 256 + 2].copy_from_slice(&[0, 0]);
        let page = made("disk", &[(0, &image), (550, &[2, 6])]);
        assert_eq!(count(&page, "<g class=\"cell"), 3 * 6);
    }
}
