//! `oracle [--rules] [--rows] [--clear] [--quiet] [--scramble N] [--ask QUESTION].. [--questions ROOT|all].. < SESSION`: a
//! session by the published Rust. Printed are a line for each record, as cutlist has them; with --rows the table that is
//! left; then the answers to questions. Without --rules the Rust is by itself: no room, and `refused ?` for any error.
//! With --clear only a verdict is printed, whether the session is clear. What an error left behind goes to standard error.

mod desk;
mod questions;
mod session;

use approx_collections as watched;
use std::io::Read;
use std::sync::atomic::Ordering::Relaxed;

#[derive(Default)]
struct Options {
    rules: bool,
    rows: bool,
    clear: bool,
    quiet: bool,
    questions: Vec<String>,
    roots: Vec<String>,
}

fn main() {
    let Some(options) = options() else {
        eprintln!(
            "oracle [--rules] [--rows] [--clear] [--quiet] [--scramble N] [--ask QUESTION].. [--questions ROOT|all].. < SESSION"
        );
        std::process::exit(2)
    };
    std::panic::set_hook(Box::new(|_| {}));
    hypuz_util::ti::LIMITS.store(options.rules, Relaxed);
    watched::WATCH.store(options.clear, Relaxed);
    let mut bytes = vec![];
    std::io::stdin().read_to_end(&mut bytes).expect("the session can be read");
    let session = session::run(&bytes, options.rules);
    if options.clear {
        println!("{}", verdict(&session));
    } else {
        print(&session, &options);
    }
}

fn options() -> Option<Options> {
    let mut options = Options::default();
    let mut words = std::env::args().skip(1);
    while let Some(word) = words.next() {
        match &*word {
            "--rules" => options.rules = true,
            "--rows" => options.rows = true,
            "--clear" => (options.clear, options.rules) = (true, true),
            "--quiet" => options.quiet = true,
            "--scramble" => tinyset::SCRAMBLE.store(words.next()?.parse().ok()?, Relaxed),
            "--ask" => options.questions.push(words.next()?),
            "--questions" => options.roots.push(words.next()?),
            _ => return None,
        }
    }
    Some(options)
}

fn verdict(session: &session::Session) -> String {
    let (distances, pairs) = (watched::BAD_DISTANCE.load(Relaxed), watched::BAD_PAIR.load(Relaxed));
    match session {
        session if session.is_bad => "unclear bad".into(),
        session if session.desk.is_none() => "unclear no cube".into(),
        session if session.refused > 0 => format!("unclear refused {}", session.refused),
        _ if distances > 0 => format!("unclear distance {distances}"),
        _ if pairs > 0 => format!("unclear pair {pairs}"),
        _ => "clear".into(),
    }
}

fn print(session: &session::Session, options: &Options) {
    if !options.quiet {
        session.lines.iter().for_each(|line| println!("{line}"));
    }
    let Some(desk) = &session.desk else { return };
    if options.rows {
        print!("{}", desk.space.probe_rows());
    }
    let of_roots = options.roots.iter().flat_map(|root| questions::of_root(&desk.space, root));
    for question in options.questions.iter().cloned().chain(of_roots) {
        let answer = questions::ask(&desk.space, &question, options.rules)
            .unwrap_or_else(|error| desk::refused(&error, options.rules));
        println!("{question}: {answer}");
    }
}
