//! What the runs from a seed share: their words, the lines of their reports, and how they end.

use std::process::ExitCode;

/// `NAME N SEED`, and the words that the usage has in brackets: compares N times, then reports what was met. Fails on a
/// difference, or where the report says so.
pub fn run<Met: Default>(
    usage: &str,
    compare: fn(u64, u64, &mut Met) -> Result<(), String>,
    report: fn(u64, &Met) -> bool,
) -> ExitCode {
    let words: Vec<String> = std::env::args().skip(1).collect();
    let (numbers, others): (Vec<_>, Vec<_>) = words.iter().partition(|word| word.parse::<u64>().is_ok());
    let numbers: Vec<u64> = numbers.iter().filter_map(|word| word.parse().ok()).collect();
    let ([n, seed], true) = (&numbers[..], others.iter().all(|word| usage.contains(&format!("[{word}]")))) else {
        eprintln!("{usage}");
        return ExitCode::from(2);
    };
    let mut met = Met::default();
    match compare(*n, *seed, &mut met) {
        Ok(()) if report(*n, &met) => ExitCode::SUCCESS,
        Ok(()) => ExitCode::FAILURE,
        Err(difference) => {
            say(&format!("seed {seed}, {difference}"));
            ExitCode::FAILURE
        }
    }
}

/// Whether the calls themselves are asked for, as bytes on standard output.
pub fn is_written() -> bool {
    std::env::args().any(|word| word == "--bytes")
}

/// A line of the report: on standard output, or on the other where that one has the calls.
pub fn say(line: &str) {
    if is_written() {
        eprintln!("{line}");
    } else {
        println!("{line}");
    }
}

/// Says how often an outcome was met, and tells whether it was.
pub fn is_met(times: Option<&u64>, outcome: &str) -> bool {
    let times = times.copied().unwrap_or(0);
    say(&format!("{times:>12}  {outcome}{}", if times == 0 { "  NEVER MET" } else { "" }));
    times > 0
}
