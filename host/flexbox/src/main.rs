//! flexbox: makes FLEX diskette images and lists, reads, checks and changes their files, by the proved service.
//!
//! Whatever changes a diskette goes through the seven entries of libflex.a, and whether one is sound its census alone decides. Where the
//! service shows nothing, `raw` reads an image's bytes by themselves: for `salvage`, and to look for what a diskette has lost. `main`
//! finds the command and gives its exit status: 0 done; 1 refused by the service, or damaged, by now repaired too; 2 wrong usage,
//! or not repaired; 3 a file of this machine can't be read or may not be written; 4 another program has the image locked.

#![forbid(unsafe_code)]

mod check;
mod commands;
mod diff;
mod failure;
mod image;
mod input;
mod json;
mod leftovers;
mod locks;
mod page;
mod plan;
mod raw;
mod replace;
mod salvage;
mod words;

use failure::Failure;
use std::env;
use std::ffi::OsString;
use std::process::ExitCode;
use words::Words;

fn main() -> ExitCode {
    let arguments: Vec<OsString> = env::args_os().skip(1).collect();
    match run(&arguments) {
        Ok(()) => ExitCode::SUCCESS,
        Err(failure) => {
            failure.say();
            ExitCode::from(failure.status())
        }
    }
}

fn run(arguments: &[OsString]) -> Result<(), Failure> {
    let words: Vec<&str> = arguments.iter().map(|word| word.to_str().unwrap_or("\u{fffd}")).collect();
    match words.as_slice() {
        [] => Err(Failure::Usage("no command; 'flexbox help' lists them".to_string())),
        ["help" | "--help" | "-h"] | ["help", "help"] => commands::print(commands::overview().as_bytes()),
        ["help" | "--help" | "-h", name] => commands::print(command(name)?.help().as_bytes()),
        ["--version" | "-V"] => {
            let text = format!("flexbox {}, flex {}\n", env!("CARGO_PKG_VERSION"), flex::VERSION);
            commands::print(text.as_bytes())
        }
        ["help" | "--help" | "-h" | "--version" | "-V", ..] => {
            Err(Failure::Usage("too many words; usage: flexbox help [COMMAND], or flexbox --version".to_string()))
        }
        [name, ..] => {
            let command = command(name)?;
            match Words::parse(command, &arguments[1..])? {
                Some(words) => (command.run)(&words),
                None => commands::print(command.help().as_bytes()),
            }
        }
    }
}

fn command(name: &str) -> Result<&'static words::Command, Failure> {
    commands::find(name).ok_or_else(|| Failure::Usage(format!("no command '{}'; 'flexbox help' lists them", name)))
}
