//! The table of commands, and the help that is made of it.

use super::{census, change, check, demo, diff, dump, format, get, info, list, put, repair, report, salvage, undelete};
use crate::words::Command;
use std::fmt::Write;

/// As many operands as one likes.
const MANY: usize = usize::MAX;

pub const COMMANDS: &[Command] = &[
    Command {
        name: "list",
        usage: "[--json] IMAGE",
        summary: "show the directory",
        details: "Shows the live files in the order of their slots: slot, name, size in sectors, date (month-day-year) and\n\
                  protection (W write, D delete, R read), then how many slots are left.\n",
        operands: (1, 1),
        options: &["--json"],
        run: list::run,
    },
    Command {
        name: "info",
        usage: "[--json] IMAGE..",
        summary: "show the shape, label, date and free space",
        details: "Shows the last track M and the sectors a track S, label, volume number and date of the diskette, what is\n\
                  free, how many files there are, and what the census says. Of several images a line each.\n",
        operands: (1, MANY),
        options: &["--json"],
        run: info::run,
    },
    Command {
        name: "check",
        usage: "[--json] IMAGE..",
        summary: "check the diskette and say where it is damaged",
        details: "Takes the proved census and says, rule by rule, where the diskette breaks it: which slot, file and sector, and\n\
                  who shares a sector; which files the directory does not reach; what a flexbox that is gone has left beside it.\n\
                  Of several images a line each, and the highest exit status. Exit status 0: clean; 1: damaged, or no diskette.\n\
                  Nothing is changed. With --json there is one object in a line for each image, whatever it is.\n",
        operands: (1, MANY),
        options: &["--json"],
        run: check::run,
    },
    Command {
        name: "census",
        usage: "[--json] IMAGE",
        summary: "check the diskette; show which file holds each sector",
        details: "Shows the proved census as a picture: a line a track, a letter a file, # for those past the 62nd, a dot for a\n\
                  free sector, = for one that the directory has taken. With --json its list: each data sector with its owner,\n\
                  0 for free, 65534 for the directory, else the slot. A damaged diskette gets no picture, but its number and\n\
                  where the damage is.\n",
        operands: (1, 1),
        options: &["--json"],
        run: census::run,
    },
    Command {
        name: "get",
        usage: "[--trim] [--files] [--replace] [--force] IMAGE NAME.EXT[=FILE].., or --slot N IMAGE [FILE]",
        summary: "give the bytes of files",
        details: "Writes a file's bytes to standard output, or to FILE: whole sectors of 252 bytes, with the zeros that fill the\n\
                  last one up. A damaged file is refused: one whose chain is not as its slot states (it runs on into another\n\
                  file, or ends early), or which shares a sector or its name with another. So is a read-protected one.\n\
                  \x20 --trim     without the zeros at the end (those that were written, too)\n\
                  \x20 --files    each word is a NAME.EXT, which goes to a file of that name in the current folder\n\
                  \x20 --replace  a FILE that is there already is replaced\n\
                  \x20 --force    gives the bytes of a damaged file, too, with a warning and exit status 1; of a read-protected one\n\
                  \x20            it gives none\n\
                  \x20 --slot     the file of this slot, as list numbers them, whatever its name is; to FILE, or to standard output\n",
        operands: (1, MANY),
        options: &["--trim", "--files", "--replace", "--force", "--slot N"],
        run: get::run,
    },
    Command {
        name: "put",
        usage: "[--files] [--replace] [--force] IMAGE NAME.EXT[=FILE]..",
        summary: "make new files",
        details: "Makes a new file of standard input, or of FILE, which must not be empty. Of several files all are made or none.\n\
                  Where no slot is left, the directory takes a free sector and keeps it.\n\
                  The date is today's by the local time (the variable TZ, or the machine's time zone).\n\
                  \x20 --files    each word is a FILE, and the last part of its path is the name on the diskette\n\
                  \x20 --replace  a file of that name is replaced; it is lost only once the new one is saved. A new file has no\n\
                  \x20            protection: where the old one was read-protected, that is said\n\
                  \x20 --force    changes a damaged diskette, too, and says so; the old image is kept as IMAGE.before\n",
        operands: (2, MANY),
        options: &["--files", "--replace", "--force"],
        run: put::run,
    },
    Command {
        name: "delete",
        usage: "[--force] IMAGE NAME.EXT, or --slot N IMAGE",
        summary: "delete a file",
        details: "Deletes the file; its sectors hang behind the free chain. Sectors of the directory are never given back.\n\
                  \x20 --force    changes a damaged diskette, too, and says so; sound files may be lost, so the old image is kept as\n\
                  \x20            IMAGE.before. repair --drop is safer\n\
                  \x20 --slot     the file of this slot, whatever its name is; on a sound diskette alone\n",
        operands: (1, 2),
        options: &["--force", "--slot N"],
        run: change::delete,
    },
    Command {
        name: "undelete",
        usage: "[--slot N] IMAGE [NAME.EXT]",
        summary: "bring a deleted file back",
        details: "Brings back a file whose sectors are still free, by the start, end and size of its slot: in their order, with rising\n\
                  record numbers. A delete has overwritten the first letter; NAME.EXT has it, and must else be as it was.\n\
                  Without NAME.EXT it lists the deleted slots and says which files can be brought back. Of a damaged diskette\n\
                  nothing is brought back.\n\
                  \x20 --slot     which slot, where several have that name but for the first letter\n",
        operands: (1, 2),
        options: &["--slot N"],
        run: undelete::run,
    },
    Command {
        name: "rename",
        usage: "[--force] IMAGE OLD.EXT NEW.EXT, or --slot N IMAGE NEW.EXT",
        summary: "give a file a new name",
        details: "The new name must have an extension.\n\
                  \x20 --force    changes a damaged diskette, too, and says so; the old image is kept as IMAGE.before\n\
                  \x20 --slot     the file of this slot, whatever its name is; on a sound diskette alone\n",
        operands: (2, 3),
        options: &["--force", "--slot N"],
        run: change::rename,
    },
    Command {
        name: "format",
        usage: "[--tracks N] [--sectors N] [--label TEXT] [--volume N] [--date MONTH-DAY-YEAR] [--replace] IMAGE",
        summary: "make a blank diskette",
        details: "Makes IMAGE, a diskette without files: every sector behind track 0 is free, and track 0 has the directory from its\n\
                  sector 5 to its last. IMAGE appears whole or not at all. One that is there already is refused.\n\
                  \x20 --tracks   how many tracks, 2 to 80, track 0 among them; otherwise 35\n\
                  \x20 --sectors  how many sectors a track, 5 to 36; otherwise 10\n\
                  \x20 --label    at most eleven characters of printable ASCII, filled up with zeros; otherwise none\n\
                  \x20 --volume   the volume number, 0 to 65535; otherwise 0\n\
                  \x20 --date     a day of the calendar, as 12-03-81 or 12-3-1981; otherwise today's, as put has it\n\
                  \x20 --replace  an IMAGE that is there already is replaced, a damaged one too, with all files on it; it is kept as\n\
                  \x20            IMAGE.before. The new one does not have its shape, label and volume number\n",
        operands: (1, 1),
        options: &[
            "--tracks N",
            "--sectors N",
            "--label TEXT",
            "--volume N",
            "--date MONTH-DAY-YEAR",
            "--replace",
        ],
        run: format::run,
    },
    Command {
        name: "repair",
        usage: "[--dry-run] [--yes] [--drop NAME.EXT].. IMAGE",
        summary: "mend a damaged diskette, and say what each file keeps",
        details: "Says what is wrong, then what the proved repair leaves: in the order of the slots each file keeps its chain as far as\n\
                  it goes over sectors that no earlier file has kept, at most as long as it is stated; all else is free. A file\n\
                  that is rightly chained and shares nothing is kept whole. Then it is done, and the old image is kept beside the\n\
                  new one as IMAGE.before, or IMAGE.before-2 and on where that is there. Where a file would lose something, it is\n\
                  counted and asked first, and others can read IMAGE meanwhile; where a rightly chained one would be cut for an\n\
                  earlier one, it is said how to prevent that. docs/REPAIR.md says more.\n\
                  Exit status 0: nothing was wrong, and nothing is written; 1: repaired; 2: not repaired, with the reason.\n\
                  \x20 --dry-run  only says what would be done; the exit status is the one that the repair has once it is agreed to\n\
                  \x20            and can be written\n\
                  \x20 --yes      does not ask\n\
                  \x20 --drop     gives this file up first, so that another keeps what they share; can be typed several times\n",
        operands: (1, 1),
        options: &["--dry-run", "--yes", "--drop NAME.EXT"],
        run: repair::run,
    },
    Command {
        name: "salvage",
        usage: "[--deleted] [--shape M,S] [--json] IMAGE FOLDER",
        summary: "save all that can be read of a damaged image, or of what is none",
        details: "Writes every file that a slot leads to, as far as its links lead, to FOLDER, which must be new or empty, and lists them:\n\
                  whole, cut, runs on (into what is behind its stated size), other end, shared, out of order (by record numbers),\n\
                  missing (behind the end of IMAGE, where zeros are read). Slots in sectors of track 0 that the directory does not\n\
                  reach are used, too. Chains that no file holds become LOST0001.DAT and on. Read-protected files are given.\n\
                  IMAGE can be any file, and is not changed. Exit status 0: all is whole; 1: something is not.\n\
                  \x20 --deleted  deleted files, too; the first letter of their names is lost, and _ here\n\
                  \x20 --shape    the last track and the sectors a track, where IMAGE does not state them rightly\n",
        operands: (2, 2),
        options: &["--deleted", "--shape M,S", "--json"],
        run: salvage::run,
    },
    Command {
        name: "diff",
        usage: "[--json] IMAGE OTHER",
        summary: "compare two diskettes",
        details: "Says which files only one of them has, or has with other bytes, size, date, protection, place or slot; which slots and\n\
                  sectors differ, if both have one shape; and how their free chains differ. Exit status 0: the same, byte for byte;\n\
                  1: something differs.\n",
        operands: (2, 2),
        options: &["--json"],
        run: diff::run,
    },
    Command {
        name: "dump",
        usage: "IMAGE TRACK,SECTOR",
        summary: "show the bytes of a sector",
        details: "Shows the 256 bytes of any sector, track 0 too: bytes 0-1 are the link, 2-3 the record number.\n",
        operands: (2, 2),
        options: &[],
        run: dump::run,
    },
    Command {
        name: "report",
        usage: "IMAGE > PAGE.html",
        summary: "make a page to look at",
        details: "Writes one HTML page to standard output, with all that it needs: the diskette as rows of sectors coloured by who\n\
                  holds them, damaged places marked, the directory as a table, what the census says in words, what a repair would\n\
                  do, and what to type next. Of more than 2,000 files as many are listed, the damaged ones first.\n",
        operands: (1, 1),
        options: &[],
        run: report::run,
    },
    Command {
        name: "demo",
        usage: "IMAGE NEW DAMAGED",
        summary: "format, put, list, census, get, delete and repair, told step by step",
        details: "Formats NEW, a file that is not there yet, fills it with three logs, and reads them back. Then it writes NIGHT.TXT\n\
                  to IMAGE, reads it back and deletes it. Directory and census are shown in between. Then DAMAGED, which is not\n\
                  there either, becomes a copy of IMAGE in which two files share a sector, and is repaired.\n",
        operands: (3, 3),
        options: &[],
        run: demo::run,
    },
];

pub fn find(name: &str) -> Option<&'static Command> {
    COMMANDS.iter().find(|command| command.name == name)
}

impl Command {
    /// What `help COMMAND` shows.
    pub fn help(&self) -> String {
        format!(
            "usage: flexbox {} {}\n\n{}  --wait N   waits N seconds, not 5, where another program has IMAGE locked\n",
            self.name, self.usage, self.details
        )
    }
}

const REST: &str = "
'flexbox help COMMAND' says more of one; './run COMMAND ..' in the repository builds flexbox first.

A name has at most 8 characters and an extension at most 3; both begin with a letter and go on with letters, digits,
hyphens or underscores; upper and lower case differ. Without an extension TXT is taken, but NEW.EXT must have one.

A diskette that the census refuses is not changed but by repair, --force or format --replace, a read-only file by none.
A changed image, or a blank one, is checked, written to a new file beside IMAGE, synced and renamed to it, a change all
under a lock. A refusal leaves IMAGE as it was.

Exit status: 0 done; 1 refused by the diskette service, or damaged; 2 wrong usage; 3 a file of this machine can't be
read or may not be written; 4 another program has IMAGE locked. Of repair: 0 nothing was wrong; 1 repaired; 2 not
repaired. Of diff: 1 something differs. Of salvage: 1 something is not whole.
";

/// What `help` shows.
pub fn overview() -> String {
    let mut text = String::from("usage: flexbox COMMAND ..\n\n");
    for command in COMMANDS {
        let _ = writeln!(text, "  {:9} {}", command.name, command.summary);
    }
    text.push_str("  help      show this, or more of one command; --version shows the version\n");
    text + REST
}

#[cfg(test)]
mod tests {
    use super::*;

    #[test]
    fn no_line_of_the_help_is_too_wide_for_a_terminal() {
        let all = COMMANDS.iter().map(Command::help).chain([overview()]);
        for line in all.flat_map(|text| text.lines().map(str::to_string).collect::<Vec<_>>()) {
            assert!(line.chars().count() <= 120, "{}", line);
        }
    }

    #[test]
    fn each_option_is_told_in_the_usage() {
        for command in COMMANDS {
            for option in command.options {
                assert!(command.usage.contains(option), "{} {}", command.name, option);
            }
        }
    }
}
