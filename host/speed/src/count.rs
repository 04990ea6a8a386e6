//! One job, done once, inside a function by whose name a tool knows when to count: all that makes its diskette is outside.

use crate::jobs::{
    data_sectors, half_full, outputs, to_fill, to_format, to_load, to_open, to_read, to_repair, to_write, with_files,
    Buffers, Service, OPENED, PLAIN, PROVED,
};

/// A job with its buffers made ready.
enum Job {
    Census(Vec<u8>, [Vec<u8>; 2]),
    Open(Vec<u8>, Vec<Vec<u8>>),
    Fill(Buffers),
    Read(Buffers),
    Load(Buffers, Vec<[u8; 2]>),
    Store(Buffers, Vec<[u8; 2]>),
    Write(Buffers, Vec<[u8; 2]>),
    /// Of an image with this last track and these sectors per track.
    Format(Vec<u8>, usize, usize),
    /// Of an image with so many sectors that are in use.
    Repair(Vec<u8>, usize),
}

/// Does the job that the words of the command ask for; the last of them may be a number of files. None: they are no words for a
/// job.
pub fn one(service: &str, job: &str, last: &str, per: &str, files: &[&str]) -> Option<()> {
    let service = match service {
        "proved" => PROVED,
        "plain" => PLAIN,
        _ => return None,
    };
    let last = last.parse().ok().filter(|last| (1..80).contains(last))?;
    let per = per.parse().ok().filter(|per| (5..37).contains(per))?;
    let mut job = match files {
        [] => ready(job, last, per)?,
        [files] => ready_with(job, last, per, files.parse().ok().filter(|files| (OPENED..10_000).contains(files))?)?,
        _ => return None,
    };
    let whole = match job {
        Job::Open(..) => OPENED,
        _ => last * per * flex::DATA,
    };
    let done = counted_job(service, &mut job);
    assert_eq!(
        done, whole,
        "not all bytes were taken, given, loaded, stored, surveyed, freed or kept, or not all files opened"
    );
    Some(())
}

/// A job on a diskette with this many files.
fn ready_with(job: &str, last: usize, per: usize, files: usize) -> Option<Job> {
    match job {
        "census" => Some(Job::Census(with_files(last, per, files), outputs(last * per))),
        "open" => Some(to_open(last, per, files)).map(|(image, tables)| Job::Open(image, tables)),
        "repair" => Some(repair(with_files(last, per, files), last * per)),
        _ => None,
    }
}

fn ready(job: &str, last: usize, per: usize) -> Option<Job> {
    match job {
        "census" => Some(Job::Census(half_full(last, per), outputs(last * per))),
        "fill" => Some(Job::Fill(to_fill(last, per))),
        "read" => Some(Job::Read(to_read(filled(last, per)))),
        "load" => Some(Job::Load(to_load(filled(last, per)), data_sectors(last, per))),
        "store" => Some(Job::Store(to_fill(last, per), data_sectors(last, per))),
        "write" => Some(Job::Write(to_write(last, per), data_sectors(last, per))),
        "format" => Some(Job::Format(to_format(last, per), last, per)),
        "repair" => Some(repair(half_full(last, per), last * per)),
        _ => None,
    }
}

fn repair(image: Vec<u8>, data_sectors: usize) -> Job {
    let (image, free) = to_repair(image);
    Job::Repair(image, data_sectors - free)
}

fn filled(last: usize, per: usize) -> Buffers {
    let mut buffers = to_fill(last, per);
    PROVED.fill(&mut buffers);
    buffers
}

/// How many bytes of files it went over, or files it opened. host/speed/counts names this function.
#[inline(never)]
fn counted_job(service: Service, job: &mut Job) -> usize {
    match job {
        Job::Census(image, lists) => {
            service.survey(image, lists);
            lists[0].len() / 2 * flex::DATA
        }
        Job::Open(image, tables) => service.open_all(image, tables),
        Job::Fill(buffers) => service.fill(buffers),
        Job::Read(buffers) => service.read(buffers),
        Job::Load(buffers, sectors) => service.load(buffers, sectors) * flex::DATA,
        Job::Store(buffers, sectors) => service.store(buffers, sectors) * flex::DATA,
        Job::Write(buffers, sectors) => service.write(buffers, sectors) * flex::DATA,
        Job::Format(image, last, per) => service.format(image, *last, *per) * flex::DATA,
        Job::Repair(image, used) => (service.repair(image) + *used) * flex::DATA,
    }
}
