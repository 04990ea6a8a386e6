//! The times of both services. A diskette of 35 tracks of 10 sectors, of which 34 tracks hold data, is filled by single calls
//! and read back, and its sectors are loaded and stored one by one; a census is taken of it, of the smallest diskette and of the
//! largest, and the largest is formatted, and repaired. On the largest there are then up to 2,000 files, for which its directory has grown: some
//! are opened by name, a census is taken, and it is repaired. The two services take turns, every round starts from buffers that are cleared and
//! made anew, and of all rounds the quickest counts, since what else the machine does can only slow one down.

use crate::jobs::{
    data_sectors, files, half_full, outputs, to_fill, to_format, to_load, to_open, to_read, to_repair, with_files,
    Buffers, Service, OPENED, PLAIN, PROVED,
};
use std::time::{Duration, Instant};

/// Prints the table of times, the best of so many rounds.
pub fn all(rounds: usize) {
    println!("time for a sector, best of {} rounds          libflex.a  plain Rust   ratio", rounds);
    transfers(rounds, 34, 10);
    for (last, per) in [(1, 5), (34, 10), (79, 36)] {
        let what = format!("census of {}×{}, {} files, half full", last, per, files(last, per));
        censuses(rounds, &what, &half_full(last, per), last * per);
    }
    formats(rounds, 79, 36);
    repairs(rounds, "repair of 79×36, 8 files, half full", half_full(79, 36), 79 * 36);
    let few = crowded_census(rounds, 79, 36, 200);
    let many = crowded_census(rounds, 79, 36, 2000);
    repairs(rounds, "repair of 79×36, 2000 files", with_files(79, 36, 2000), 79 * 36);
    println!("time for an open by name");
    for files in [10, 100, 2000] {
        opens(rounds, 79, 36, files);
    }
    let factor = many.as_secs_f64() / few.as_secs_f64();
    println!("libflex.a's census of 2,000 files takes {:.1} times that of 200", factor);
}

/// Of files of one sector; the time of the proved service.
fn crowded_census(rounds: usize, last: usize, per: usize, files: usize) -> Duration {
    let what = format!("census of {}×{}, {} files", last, per, files);
    censuses(rounds, &what, &with_files(last, per, files), last * per)
}

fn transfers(rounds: usize, last: usize, per: usize) {
    let mut best = [[Duration::MAX; 2]; 4];
    for _ in 0..rounds {
        let (plain, plain_buffers) = transferred(PLAIN, last, per);
        let (proved, proved_buffers) = transferred(PROVED, last, per);
        assert!(plain_buffers == proved_buffers, "the two services' diskettes or tables differ");
        for (best, times) in best.iter_mut().zip(proved.iter().zip(&plain)) {
            *best = [best[0].min(*times.0), best[1].min(*times.1)];
        }
    }
    let sectors = last * per;
    let jobs = [
        &format!("fill {}×{}, {} single calls", last, per, sectors * flex::DATA),
        "read it back by single calls",
        "load its sectors by read sector",
        "store its sectors by their last byte",
    ];
    for (job, [proved, plain]) in jobs.iter().zip(best) {
        print_row(job, sectors, proved, plain);
    }
}

/// The times for filling a blank diskette with one file, for reading that back, for loading its sectors and for storing those
/// of another one, and the buffers of both.
fn transferred(service: Service, last: usize, per: usize) -> ([Duration; 4], [Buffers; 2]) {
    let sectors = data_sectors(last, per);
    let mut buffers = to_fill(last, per);
    let (fill, sent) = timed(|| service.fill(&mut buffers));
    let mut buffers = to_read(buffers);
    let (read, fetched) = timed(|| service.read(&mut buffers));
    let mut buffers = to_load(buffers);
    let (load, loaded) = timed(|| service.load(&mut buffers, &sectors));
    let mut others = to_fill(last, per);
    let (store, stored) = timed(|| service.store(&mut others, &sectors));
    let bytes = sectors.len() * flex::DATA;
    let done = [sent, fetched, loaded * flex::DATA, stored * flex::DATA];
    assert_eq!(done, [bytes; 4], "not all was filled, read back, loaded and stored");
    ([fill, read, load, store], [buffers, others])
}

fn timed<T>(work: impl FnOnce() -> T) -> (Duration, T) {
    let began = Instant::now();
    let done = work();
    (began.elapsed(), done)
}

/// Prints a row, and gives the time of the proved service.
fn censuses(rounds: usize, what: &str, image: &[u8], data_sectors: usize) -> Duration {
    let mut best = [Duration::MAX; 2];
    let mut lists = [outputs(0), outputs(0)];
    for _ in 0..rounds {
        for (i, service) in [PROVED, PLAIN].iter().enumerate() {
            let (time, list) = census(*service, image, data_sectors);
            best[i] = best[i].min(time);
            lists[i] = list;
        }
        assert!(lists[0] == lists[1], "the two censuses differ");
    }
    print_row(what, data_sectors, best[0], best[1]);
    best[0]
}

/// The time of one census, and its two lists. That of a small diskette is taken several times over, since looking at the clock
/// takes as long as one.
fn census(service: Service, image: &[u8], data_sectors: usize) -> (Duration, [Vec<u8>; 2]) {
    let mut lists = outputs(data_sectors);
    let times = 1 + 1000 / data_sectors as u32;
    let began = Instant::now();
    for _ in 0..times {
        service.survey(image, &mut lists);
    }
    (began.elapsed() / times, lists)
}

/// Each service has an image of its own, which no open for read changes, and tables that are made anew before each round.
fn opens(rounds: usize, last: usize, per: usize, files: usize) {
    let (image, tables) = to_open(last, per, files);
    let mut images = [image.clone(), image.clone()];
    let mut best = [Duration::MAX; 2];
    for _ in 0..rounds {
        let mut after = [Vec::new(), Vec::new()];
        for (i, service) in [PROVED, PLAIN].iter().enumerate() {
            after[i] = tables.clone();
            let (time, opened) = timed(|| service.open_all(&mut images[i], &mut after[i]));
            assert_eq!(opened, OPENED, "not all files were opened");
            best[i] = best[i].min(time);
        }
        assert!(after[0] == after[1], "the two services' tables differ");
    }
    assert!(images.iter().all(|after| *after == image), "an open for read has changed the diskette");
    print_row(&format!("open by name on {}×{}, {} files", last, per, files), OPENED, best[0], best[1]);
}

/// Each service has an image of its own, cleared before each round.
fn formats(rounds: usize, last: usize, per: usize) {
    let mut images = [to_format(last, per), to_format(last, per)];
    let mut best = [Duration::MAX; 2];
    for _ in 0..rounds {
        for (i, service) in [PROVED, PLAIN].iter().enumerate() {
            images[i].fill(0);
            let (time, free) = timed(|| service.format(&mut images[i], last, per));
            assert_eq!(free, last * per, "not all sectors are free");
            best[i] = best[i].min(time);
        }
        assert!(images[0] == images[1], "the two blank diskettes differ");
    }
    print_row(&format!("format {}×{}", last, per), images[0].len() / flex::SECTOR, best[0], best[1]);
}

/// Each service has an image of its own, damaged anew before each round.
fn repairs(rounds: usize, what: &str, image: Vec<u8>, data_sectors: usize) {
    let (damaged, expected) = to_repair(image);
    let mut images = [damaged.clone(), damaged.clone()];
    let mut best = [Duration::MAX; 2];
    for _ in 0..rounds {
        for (i, service) in [PROVED, PLAIN].iter().enumerate() {
            images[i].copy_from_slice(&damaged);
            let (time, free) = timed(|| service.repair(&mut images[i]));
            assert_eq!(free, expected, "not all sectors are free again");
            best[i] = best[i].min(time);
        }
        assert!(images[0] == images[1], "the two repaired diskettes differ");
    }
    print_row(what, data_sectors, best[0], best[1]);
}

fn print_row(what: &str, sectors: usize, proved: Duration, plain: Duration) {
    let each = |time: Duration| time.as_secs_f64() * 1e9 / sectors as f64;
    println!(
        "  {:42} {:8.1} ns {:8.1} ns  {:6.2}",
        what,
        each(proved),
        each(plain),
        proved.as_secs_f64() / plain.as_secs_f64()
    );
}
