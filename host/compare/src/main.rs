//! Compares the proved archive with the reference, call by call: the answer, and every byte of both buffers.
//!
//! First what is tried in full (sweep.rs), then episodes at random until enough calls were made. An episode has a diskette
//! of its own and one of three moods: calm, where calls alone change it, raw writes only if a repair follows them, so that the
//! census must accept it in the end, and where the power fails in many a call (cut.rs); rough, where it is damaged now and then;
//! wild, where control blocks are random too. Each has a seed of its own, so that a failure is repeated alone and at once.

#![forbid(unsafe_code)]

mod cut;
mod damage;
mod formatted;
mod growth;
mod image;
mod lent;
mod mending;
mod pair;
mod random;
mod repaired;
mod scene;
mod seen;
mod surveyed;
mod sweep;
mod tally;
mod wanted;
mod work;

use pair::{Checked, Mismatch, Pair};
use random::Random;
use scene::Scene;
use std::env;
use std::process::ExitCode;
use std::time::{Instant, SystemTime, UNIX_EPOCH};
use tally::Tally;

const USAGE: &str = "\
usage: compare [--calls N] [--seed N|random] [--episode N] [--all]
  --calls N     at least this many calls (default 1000000)
  --seed N      another run; 'random' takes the seed from the clock (default 1)
  --episode N   only this episode of the seed, as a failure names it
  --all         print the count of every situation, too
";

struct Options {
    calls: u64,
    seed: u64,
    episode: Option<u64>,
    all: bool,
}

fn options() -> Option<Options> {
    let mut options = Options { calls: 1_000_000, seed: 1, episode: None, all: false };
    let mut words = env::args().skip(1);
    while let Some(word) = words.next() {
        match word.as_str() {
            "--calls" => options.calls = words.next()?.parse().ok()?,
            "--seed" => options.seed = seed(&words.next()?)?,
            "--episode" => options.episode = Some(words.next()?.parse().ok()?),
            "--all" => options.all = true,
            _ => return None,
        }
    }
    Some(options)
}

fn seed(word: &str) -> Option<u64> {
    if word != "random" {
        return word.parse().ok();
    }
    let now = SystemTime::now().duration_since(UNIX_EPOCH).ok()?;
    Some(now.as_nanos() as u64)
}

fn main() -> ExitCode {
    let options = match options() {
        Some(options) => options,
        None => {
            eprint!("{}", USAGE);
            return ExitCode::from(2);
        }
    };
    println!("compare: seed {}", options.seed);
    let mut tally = Tally::new();
    match options.episode {
        Some(number) => one_episode(&options, number, &mut tally),
        None => whole_run(&options, &mut tally),
    }
}

fn one_episode(options: &Options, number: u64, tally: &mut Tally) -> ExitCode {
    match episode(options.seed, number, tally) {
        Ok(()) => println!("compare: episode {} has {} equal calls", number, tally.calls),
        Err(mismatch) => return failed(options, Some(number), &mismatch.0),
    }
    ExitCode::SUCCESS
}

fn whole_run(options: &Options, tally: &mut Tally) -> ExitCode {
    let began = Instant::now();
    if let Err(mismatch) = sweep::everything(tally, options.seed) {
        return failed(options, None, &mismatch.0);
    }
    let swept = tally.calls;
    let mut number = 0;
    while tally.calls < options.calls || number < 100 {
        if let Err(mismatch) = episode(options.seed, number, tally) {
            return failed(options, Some(number), &mismatch.0);
        }
        number += 1;
    }
    println!("answers by function (the papers' order, answer×count):\n{}", tally.answers().trim_end());
    if options.all {
        println!("situations:\n{}", tally.situations_text().trim_end());
    }
    let faults = tally.faults();
    for fault in &faults {
        eprintln!("compare: {}", fault);
    }
    println!(
        "compare: {} equal calls, {} of them in the sweep of all shapes, the rest in {} random episodes; {} situations; {:.1} s",
        tally.calls,
        swept,
        number,
        tally.situations_count(),
        began.elapsed().as_secs_f64()
    );
    if faults.is_empty() {
        ExitCode::SUCCESS
    } else {
        ExitCode::FAILURE
    }
}

fn failed(options: &Options, episode: Option<u64>, what: &str) -> ExitCode {
    eprintln!("compare: {}", what);
    match episode {
        Some(number) => eprintln!("compare: to repeat it: --seed {} --episode {}", options.seed, number),
        None => eprintln!("compare: in the sweep; to repeat it: --seed {}", options.seed),
    }
    ExitCode::FAILURE
}

#[derive(Clone, Copy, PartialEq)]
enum Mood {
    Calm,
    Rough,
    Wild,
}

/// One diskette and some hundreds of calls on it.
fn episode(seed: u64, number: u64, tally: &mut Tally) -> Checked<()> {
    let mut random = Random::new(seed ^ number.wrapping_mul(0xd134_2543_de82_ef95));
    let mood = random.one_of(&[Mood::Calm, Mood::Rough, Mood::Wild, Mood::Wild]);
    let (last, per) = shape(&mut random);
    let directory = directory(&mut random, per);
    let mut image = diskettes::with_directory(last, per, &directory);
    if mood == Mood::Calm && random.chance(70) {
        fill_track_0(&mut image, per, &directory, &mut random);
    }
    let mut table = vec![0; flex::TABLE];
    if mood == Mood::Wild && random.chance(50) {
        random.fill(&mut table);
    }
    let budget = match mood {
        _ if image.len() > 100_000 => 100,
        Mood::Calm => 1500,
        _ => 600,
    };
    let until = tally.calls + budget;
    let skips = random.chance(70);
    let mut scene = Scene::new(Pair::new(&image, &table, tally), random, last, per, directory);
    if skips {
        scene.skip();
    }
    while scene.pair.calls() < until {
        step(&mut scene, mood)?;
    }
    let answer = scene.census()?;
    if mood == Mood::Calm && answer != 0 {
        return Err(Mismatch(format!("calls alone have led to a diskette that the census refuses with {}", answer)));
    }
    Ok(())
}

/// Mostly small diskettes, where chains meet and fill up soon.
fn shape(random: &mut Random) -> (usize, usize) {
    match random.below(100) {
        0..=59 => (random.between(1, 2), random.between(5, 7)),
        60..=84 => (random.between(1, 5), random.between(5, 12)),
        85..=96 => (random.between(1, 20), random.between(5, 18)),
        _ => (random.between(1, 79), random.between(5, 36)),
    }
}

/// All of track 0 upward, sector 5 alone, or some sectors in any order.
fn directory(random: &mut Random, per: usize) -> Vec<usize> {
    match random.below(4) {
        0..=1 => Scene::upward(per),
        2 => vec![5],
        _ => {
            let mut others: Vec<usize> = (6..=per).collect();
            let mut directory = vec![5];
            while !others.is_empty() && random.chance(80) {
                let i = random.below(others.len());
                directory.push(others.swap_remove(i));
            }
            directory
        }
    }
}

/// What no rule looks at, and nothing may change: boot sectors, label, volume number, date, what lies between a directory sector's
/// link and its slots, and sectors that nothing uses.
fn fill_track_0(image: &mut [u8], per: usize, directory: &[usize], random: &mut Random) {
    for sector in 1..=per {
        let at = diskettes::offset(per, 0, sector);
        match sector {
            3 => {
                random.fill(&mut image[at..repaired::FREE.start]);
                random.fill(&mut image[repaired::FREE.end..image::SHAPE.start]);
                random.fill(&mut image[image::SHAPE.end..at + flex::SECTOR]);
            }
            _ if directory.contains(&sector) => random.fill(&mut image[at + 2..at + 16]),
            _ => random.fill(&mut image[at..at + flex::SECTOR]),
        }
    }
}

fn step(scene: &mut Scene, mood: Mood) -> Checked<()> {
    let (damage_image, damage_block, aim) = match mood {
        Mood::Calm => (0, 0, 0),
        Mood::Rough => (25, 0, 0),
        Mood::Wild => (30, 25, 60),
    };
    if scene.random.chance(20) {
        return scene.what_if();
    }
    if scene.random.chance(3) {
        return scene.service_visit();
    }
    if mood != Mood::Calm && scene.random.chance(12) {
        return if scene.random.chance(70) { scene.raw_write() } else { scene.mend() };
    }
    if scene.random.chance(damage_image) {
        scene.damage_image()?;
    }
    if scene.random.chance(damage_block) {
        let fcb = scene.random.below(flex::BLOCKS);
        scene.damage_block(fcb);
    }
    // Left as they are, a wrong shape and a broken directory would hide all else.
    if scene.random.chance(damage_image) {
        scene.heal_shape();
    }
    if scene.random.chance(damage_image) {
        scene.heal_broken_directory();
    }
    if scene.random.chance(aim) {
        return scene.aim();
    }
    if mood == Mood::Calm {
        return scene.work_by_night();
    }
    scene.work()
}
