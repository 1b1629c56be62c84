//! session [OPENED] SESSION SAVED
//!
//! Runs the records of SESSION, prints the line of each as cutlist does, and saves the table that stands at the end as the file SAVED.
//! OPENED is a table that was saved: the session goes on from it, and its first record may be a cut. Without it no table stands before
//! the first cube. A cube takes the place of the table here too. Where a record is bad nothing is saved.

use spoonvelvet::session::turn;
use spoonvelvet::Table;
use std::env;
use std::fs;
use std::io::{self, Write};
use std::process::ExitCode;

const USAGE: &str = "session [OPENED] SESSION SAVED: runs a session, from the table in the file OPENED or from none, and saves its table";

fn main() -> ExitCode {
    let words: Vec<String> = env::args().skip(1).collect();
    let done = match &words[..] {
        [session, saved] => run(None, session, saved),
        [opened, session, saved] => open(opened).and_then(|table| run(Some(table), session, saved)),
        _ => Err(USAGE.into()),
    };
    done.map_or_else(
        |why| {
            eprintln!("{why}");
            ExitCode::FAILURE
        },
        |()| ExitCode::SUCCESS,
    )
}

fn run(mut table: Option<Table>, session: &str, saved: &str) -> Result<(), String> {
    let bytes = fs::read(session).map_err(|error| format!("{session}: {error}"))?;
    let mut at = 0;
    while at < bytes.len() {
        let Some((line, length)) = turn(&mut table, &bytes[at..]) else {
            say(&format!("bad {at}"))?;
            return Err(format!("{session}: the record at byte {at} is bad, so nothing is saved"));
        };
        say(&line)?;
        at += length;
    }
    let table = table.ok_or("no table stands, so nothing is saved")?;
    save(&table, saved).map_err(|error| format!("{saved}: {error}"))
}

fn open(file: &str) -> Result<Table, String> {
    let bytes = fs::read(file).map_err(|error| format!("{file}: {error}"))?;
    Table::open(&bytes).map_err(|refused| format!("{file}: {refused}"))
}

fn say(line: &str) -> Result<(), String> {
    writeln!(io::stdout(), "{line}").map_err(|error| format!("the output was lost, so nothing is saved: {error}"))
}

/// Beside the file first, so that one that is there is whole until the other is.
fn save(table: &Table, file: &str) -> io::Result<()> {
    let beside = format!("{file}.part");
    fs::write(&beside, table.save())?;
    fs::rename(&beside, file)
}
