//! What is tried in full and not at random: the directory that grows (growth.rs), raw writing and repair (mending.rs), every shape,
//! formatted, and every shape just past the limits, every function code, every byte in every place of a name, every directory place, every attribute byte, every offset of preset, every code of a
//! default extension, every number and length of the error text; of format also wrong numbers and lengths of many kinds.

use crate::growth;
use crate::mending;
use crate::pair::{Checked, Pair};
use crate::random::Random;
use crate::scene::{Scene, SLOT_ATTRIBUTES};
use crate::tally::Tally;
use crate::wanted::{no_last_tracks, no_per_tracks, Wanted, LABEL, NO_LABELS};
use flex::{
    Steps, ACTIVITY, BLOCK, CLOSE, DELETE, EXTENSION, INDEX, NAME, NEW_NAME, NEXT_BYTE, NEXT_SLOT, OPEN_DIRECTORY,
    OPEN_READ, OPEN_WRITE, PLACE, POSITION, PUT_SLOT, READ_SECTOR, RENAME, SECTOR, TABLE, WRITE_SECTOR,
};

pub fn everything(tally: &mut Tally, seed: u64) -> Checked<()> {
    let mut random = Random::new(seed);
    error_texts(tally, &mut random)?;
    presets(tally)?;
    extensions(tally)?;
    codes(tally)?;
    letters(tally)?;
    places(tally)?;
    attributes(tally)?;
    formats(tally, &mut random)?;
    past_the_limits(tally, &mut random)?;
    growth::everything(tally)?;
    mending::everything(tally, &mut random)?;
    shapes(tally, &mut random)
}

/// A small diskette with one file of one sector, A.TXT, in the first slot, and all blocks closed.
fn small(tally: &mut Tally) -> Pair<'_> {
    let mut image = diskettes::blank(2, 7);
    image[4 * 256 + 16..][..19].copy_from_slice(b"A\0\0\0\0\0\0\0TXT\0\0\x02\x07\x02\x07\0\x01");
    image[541..547].copy_from_slice(&[1, 1, 2, 6, 0, 13]);
    image[diskettes::offset(7, 2, 6)..][..2].copy_from_slice(&[0, 0]);
    Pair::new(&image, &[0; TABLE], tally)
}

/// Every code with every kind of activity, on drive 0 and on others.
fn codes(tally: &mut Tally) -> Checked<()> {
    let mut pair = small(tally);
    pair.census_lent(pair.image().len(), 28, 28, 0)?;
    for code in 0..=255 {
        for activity in [0, 1, 2, 3, 15, 16, 17, 255] {
            for drive in [0, 1, 128, 255] {
                pair.poke_table(0, &[0; BLOCK]);
                pair.poke_table(0, &[code, 77, activity, drive]);
                pair.call(0, 0)?;
            }
        }
    }
    Ok(())
}

/// Every byte in every place of a name and of a new name, behind full and short words.
fn letters(tally: &mut Tally) -> Checked<()> {
    let mut pair = small(tally);
    for name in [b"ABCDEFGHXYZ", b"A\0\0\0\0\0\0\0X\0\0"] {
        for at in 0..11 {
            for letter in 0..=255 {
                let mut tried = *name;
                tried[at] = letter;
                pair.poke_table(0, &[OPEN_READ, 0, 0, 0]);
                pair.poke_table(NAME, &tried);
                pair.call(0, 0)?;
                pair.poke_table(0, &[RENAME, 0, 0, 0]);
                pair.poke_table(NAME, b"B\0\0\0\0\0\0\0TXT");
                pair.poke_table(NEW_NAME, &tried);
                pair.call(0, 0)?;
            }
        }
    }
    Ok(())
}

/// Every value of each byte of a directory place, for the next slot, a slot to put, a sector to take and a close of an unwritten file.
fn places(tally: &mut Tally) -> Checked<()> {
    let mut pair = small(tally);
    for right in [[0, 5, 16], [0, 7, 232], [0, 0, 0]] {
        for at in 0..3 {
            for value in 0..=255 {
                let mut place = right;
                place[at] = value;
                for start in [[NEXT_SLOT, 0, 16], [PUT_SLOT, 0, 16], [NEXT_BYTE, 0, 2], [CLOSE, 0, 2]] {
                    pair.poke_table(0, &[0; BLOCK]);
                    pair.poke_table(0, &start);
                    pair.poke_table(PLACE, &place);
                    pair.call(0, value)?;
                }
            }
        }
    }
    Ok(())
}

/// Every attribute byte, for the functions that look at it, while another block is closed, reads or writes the file; the file is
/// there again each time.
fn attributes(tally: &mut Tally) -> Checked<()> {
    let mut pair = small(tally);
    let image = pair.image().to_vec();
    pair.poke_table(BLOCK + PLACE, &[0, 5, 16]);
    for attributes in 0..=255 {
        for code in [DELETE, RENAME, OPEN_READ] {
            for other in [0, 1, 2] {
                pair.poke_image(0, &image);
                pair.poke_image(4 * 256 + 16 + SLOT_ATTRIBUTES, &[attributes]);
                pair.poke_table(BLOCK + ACTIVITY, &[other]);
                pair.poke_table(0, &[code, 0, 0, 0]);
                pair.poke_table(NAME, b"A\0\0\0\0\0\0\0TXT");
                pair.poke_table(NEW_NAME, b"B\0\0\0\0\0\0\0TXT");
                pair.call(0, 0)?;
            }
        }
    }
    Ok(())
}

fn error_texts(tally: &mut Tally, random: &mut Random) -> Checked<()> {
    let mut pair = Pair::new(&[], &[], tally);
    for number in 0..=255 {
        for len in 0..=20 {
            pair.error_text(len, number, random.byte())?;
        }
    }
    Ok(())
}

/// Every offset of a block and of the one behind it, in every activity.
fn presets(tally: &mut Tally) -> Checked<()> {
    let mut pair = Pair::new(&diskettes::blank(1, 5), &[7; TABLE], tally);
    for activity in [0, 1, 2, 3, 4, 15, 16, 17, 128, 144, 255] {
        for fcb in [0, 6, 7] {
            pair.poke_table(fcb * BLOCK + ACTIVITY, &[activity]);
            for offset in 0..2 * BLOCK {
                pair.preset(fcb, offset, (offset % 251) as u8 + 1)?;
            }
        }
    }
    Ok(())
}

fn extensions(tally: &mut Tally) -> Checked<()> {
    let mut pair = Pair::new(&diskettes::blank(1, 5), &[0; TABLE], tally);
    for activity in [0, 1, 2, 3, 16, 255] {
        for code in (0..=20).chain([255, 256, 65536, 1 << 32, usize::MAX]) {
            for old in [[0, 0, 0], [0, 9, 9], [1, 0, 0], [255, 0, 0]] {
                for fcb in [0, 3, 7] {
                    pair.poke_table(fcb * BLOCK + ACTIVITY, &[activity]);
                    pair.poke_table(fcb * BLOCK + EXTENSION, &old);
                    pair.extension(fcb, code)?;
                }
            }
        }
    }
    Ok(())
}

/// Format with wrong shapes, and of right ones with images and labels of wrong lengths.
fn formats(tally: &mut Tally, random: &mut Random) -> Checked<()> {
    for (last, per) in [(1, 5), (12, 5), (5, 12)] {
        let lengths = image_lengths(last, per);
        let longest = lengths.iter().max().copied().unwrap_or(0);
        let mut pair = Pair::new(&vec![random.byte(); longest], &[0; TABLE], tally);
        for shape in shapes_around(last, per) {
            for &image in &lengths {
                for label in NO_LABELS.into_iter().chain([LABEL]) {
                    pair.format_lent(image, &Wanted::labelled(random, shape.0, shape.1, label))?;
                }
            }
        }
    }
    Ok(())
}

/// The right length for this shape, and wrong ones: that of the shape the other way round is among them.
fn image_lengths(last: usize, per: usize) -> [usize; 10] {
    let track = per * SECTOR;
    let right = (last + 1) * track;
    let turned = (per + 1) * last * SECTOR;
    let near = [right - 1, right + 1, right - SECTOR, right + SECTOR, right - track, right + track];
    let [a, b, c, d, e, f] = near;
    [right, 0, 552, turned, a, b, c, d, e, f]
}

/// This shape, and all in which M, S or both are past the limits.
fn shapes_around(last: usize, per: usize) -> Vec<(usize, usize)> {
    let (no_last, no_per) = (no_last_tracks(last), no_per_tracks(per));
    let lasts = [last].into_iter().chain(no_last);
    lasts.flat_map(|last| [per].into_iter().chain(no_per.clone()).map(move |per| (last, per))).collect()
}

/// Images whose length fits their M and S, where M or S is one past a limit: all is refused.
fn past_the_limits(tally: &mut Tally, random: &mut Random) -> Checked<()> {
    let wide = (4..=37).map(|per| (80, per)).chain((4..=37).map(|per| (0, per)));
    let tall = (1..=79).map(|last| (last, 4)).chain((1..=79).map(|last| (last, 37)));
    for (last, per) in wide.chain(tall) {
        let mut image = vec![0; (last + 1) * per * 256];
        if image.len() > 552 {
            image[550] = last as u8;
            image[551] = per as u8;
        }
        let mut pair = Pair::new(&image, &[0; TABLE], tally);
        for code in 0..=13 {
            pair.poke_table(0, &[code]);
            pair.call(0, 0)?;
        }
        let bytes = 2 * last * per;
        pair.census_lent(image.len(), bytes, bytes, 1)?;
        pair.repair_lent(image.len(), TABLE, random)?;
        pair.format_lent(image.len(), &Wanted::of(random, last, per))?;
    }
    Ok(())
}

/// Every diskette, formatted over an image in which every byte was in use: a file, the last sector and the ones that do not
/// exist, the end of the directory, the census; what was done to its free chain is repaired.
fn shapes(tally: &mut Tally, random: &mut Random) -> Checked<()> {
    for last in 1..=79 {
        for per in 5..=36 {
            let wanted = Wanted::of(random, last, per);
            let used = vec![random.between(1, 255) as u8; wanted.image_bytes()];
            let mut pair = Pair::new(&used, &[0; TABLE], tally);
            pair.format_lent(used.len(), &wanted)?;
            shape(&mut Scene::new(pair, Random::new(random.next()), last, per, Scene::upward(per)))?;
        }
    }
    Ok(())
}

fn shape(scene: &mut Scene) -> Checked<()> {
    let (last, per) = (scene.last as u8, scene.per as u8);
    scene.census()?;
    scene.set_block(0, NAME, b"LAST\0\0\0\0TXT");
    // The last sector is made the first free one, so that a file reaches both ends of the data tracks.
    scene.set_address(541, (last, per));
    scene.ask(0, OPEN_WRITE)?;
    scene.transfer(0, 1)?;
    scene.set_address(541, (1, 1));
    scene.set_block(0, INDEX, &[255]);
    scene.transfer(0, 2)?;
    scene.ask(0, CLOSE)?;
    scene.census()?;
    scene.ask(0, OPEN_READ)?;
    scene.transfer(0, 1)?;
    scene.set_block(0, INDEX, &[0]);
    scene.transfer(0, 1)?;
    for address in [(last, per), (last, per + 1), (last + 1, 1), (last, 0), (0, per), (0, 1)] {
        scene.set_block_address(1, POSITION, address);
        scene.ask(1, READ_SECTOR)?;
        scene.ask(1, WRITE_SECTOR)?;
    }
    scene.ask(2, OPEN_DIRECTORY)?;
    scene.set_block(2, PLACE, &[0, per, 232]);
    scene.ask(2, NEXT_SLOT)?;
    scene.set_block(0, ACTIVITY, &[0]);
    scene.ask(2, CLOSE)?;
    scene.repair()?;
    scene.ask(0, DELETE)?;
    scene.census()?;
    Ok(())
}
