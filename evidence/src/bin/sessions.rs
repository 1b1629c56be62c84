//! `sessions ORACLE FOLDER [--program PATH] [--ask-one-in K] [--rows]`: each session file of the folder, by the published Rust (the
//! program ORACLE) and by the engine: every line, and every question on every element of the table that is left, of one
//! session in K. With --program the lines of that session program are compared too, with --rows every row of that table.

use evidence::{rows, session};
use spoonvelvet::Table;
use std::collections::BTreeMap;
use std::fmt::Debug;
use std::fs::{self, File};
use std::path::{Path, PathBuf};
use std::process::{Command, ExitCode, Stdio};

/// How many differences are shown.
const SHOWN: usize = 10;
const ENGINE: &str = "the engine";

struct Options {
    oracle: PathBuf,
    folder: PathBuf,
    program: Option<PathBuf>,
    ask_one_in: usize,
    rows: bool,
}

#[derive(Default)]
struct Tally {
    sessions: usize,
    lines: usize,
    questions: usize,
    asked: usize,
    rows: usize,
    clearness: BTreeMap<String, usize>,
    /// The Rust tests 7 before 11, against document 01's order.
    eleven_for_seven: usize,
    differences: Vec<String>,
}

impl Tally {
    fn differ(&mut self, file: &Path, what: &str, rust: &dyn Debug, who: &str, ours: &dyn Debug) {
        self.differences.push(format!("{}: {what}: the Rust {rust:?}, {who} {ours:?}", file.display()));
    }
}

fn main() -> ExitCode {
    match options().and_then(|options| compare_all(&options)) {
        Ok(tally) => report(&tally),
        Err(trouble) => {
            eprintln!("sessions ORACLE FOLDER [--program PATH] [--ask-one-in K] [--rows]: {trouble}");
            ExitCode::from(2)
        }
    }
}

fn options() -> Result<Options, String> {
    let mut words = std::env::args().skip(1);
    let mut next = || words.next().ok_or("a word is missing");
    let mut options =
        Options { oracle: next()?.into(), folder: next()?.into(), program: None, ask_one_in: 1, rows: false };
    while let Ok(word) = next() {
        match &*word {
            "--program" => options.program = Some(next()?.into()),
            "--rows" => options.rows = true,
            "--ask-one-in" => {
                options.ask_one_in = next()?.parse().ok().filter(|&k| k > 0).ok_or("K is a number from 1")?
            }
            _ => return Err(format!("{word} is no option")),
        }
    }
    Ok(options)
}

fn compare_all(options: &Options) -> Result<Tally, String> {
    let entries = fs::read_dir(&options.folder).map_err(|e| e.to_string())?;
    let mut files: Vec<PathBuf> = entries.flatten().map(|entry| entry.path()).collect();
    files.sort();
    let mut tally = Tally::default();
    for file in &files {
        compare_session(options, file, &mut tally)?;
    }
    Ok(tally)
}

fn compare_session(options: &Options, file: &Path, tally: &mut Tally) -> Result<(), String> {
    let is_asked = tally.sessions % options.ask_one_in == 0;
    tally.sessions += 1;
    tally.asked += usize::from(is_asked);
    let verdict = output(&options.oracle, &["--clear"], file)?.join(" ");
    *tally.clearness.entry(reason(&verdict)).or_default() += 1;

    let words: &[&str] = if is_asked { &["--rules", "--questions", "all"] } else { &["--rules"] };
    let by_rust = output(&options.oracle, words, file)?;
    let (answers, lines): (Vec<String>, Vec<String>) = by_rust.into_iter().partition(|line| line.contains(": "));
    let bytes = fs::read(file).map_err(|e| e.to_string())?;
    let (ours, table) = session::run(&bytes);
    tally.lines += lines.len();
    compare_lines(file, &lines, ENGINE, &ours, tally);
    if let Some(program) = &options.program {
        compare_lines(file, &lines, "the program", &output(program, &[], file)?, tally);
    }
    if let Some(table) = table {
        compare_answers(file, &answers, &table, tally);
    }
    if options.rows {
        let by_rust = output(&options.oracle, &["--rules", "--quiet", "--rows"], file)?;
        compare_rows(file, &by_rust, &rows::after(&bytes), tally);
    }
    Ok(())
}

/// A verdict without its numbers: `unclear refused 3` is `unclear refused`.
fn reason(verdict: &str) -> String {
    verdict.trim_end_matches(|c: char| c.is_ascii_digit()).trim_end().into()
}

fn compare_lines(file: &Path, by_rust: &[String], who: &str, ours: &[String], tally: &mut Tally) {
    if by_rust.len() != ours.len() {
        tally.differ(file, "number of lines", &by_rust.len(), who, &ours.len());
    }
    for (place, (rust, ours)) in by_rust.iter().zip(ours).enumerate() {
        if rust == "refused 7" && ours == "refused 11" {
            tally.eleven_for_seven += 1;
        } else if rust != ours {
            tally.differ(file, &format!("line {}", place + 1), rust, who, ours);
        }
    }
}

/// An answer is `question: answer`.
fn compare_answers(file: &Path, answers: &[String], table: &Table, tally: &mut Tally) {
    tally.questions += answers.len();
    for (question, rust) in answers.iter().filter_map(|answer| answer.split_once(": ")) {
        let ours = session::ask(table, question).unwrap_or_default();
        if rust != ours {
            tally.differ(file, question, &rust, ENGINE, &ours);
        }
    }
}

fn compare_rows(file: &Path, by_rust: &[String], ours: &[String], tally: &mut Tally) {
    tally.rows += by_rust.len();
    if by_rust.len() != ours.len() {
        tally.differ(file, "number of rows", &by_rust.len(), ENGINE, &ours.len());
    }
    for (rust, ours) in by_rust.iter().zip(ours).filter(|(rust, ours)| rust != ours) {
        tally.differ(file, "row", rust, ENGINE, ours);
    }
}

/// The lines that a program prints for a session.
fn output(program: &Path, words: &[&str], file: &Path) -> Result<Vec<String>, String> {
    let trouble = |e: std::io::Error| format!("{}: {e}", program.display());
    let input = File::open(file).map_err(trouble)?;
    let output = Command::new(program).args(words).stdin(input).stderr(Stdio::null()).output().map_err(trouble)?;
    Ok(String::from_utf8_lossy(&output.stdout).lines().map(String::from).collect())
}

fn report(tally: &Tally) -> ExitCode {
    println!("{} sessions, {} lines compared", tally.sessions, tally.lines);
    for (reason, sessions) in &tally.clearness {
        println!("{sessions:>10}  {reason}");
    }
    println!("{} lines left out: refused 11 here and 7 by the Rust, which tests 7 first", tally.eleven_for_seven);
    println!("{} questions compared, on the tables of {} sessions", tally.questions, tally.asked);
    println!("{} rows compared", tally.rows);
    println!("{} differences", tally.differences.len());
    tally.differences.iter().take(SHOWN).for_each(|difference| println!("{difference}"));
    if tally.differences.is_empty() {
        ExitCode::SUCCESS
    } else {
        ExitCode::FAILURE
    }
}
