//! The stored sessions, whose lines the published Rust gave, in one go and with the table saved and opened after every record.

use spoonvelvet::session::turn;
use spoonvelvet::Table;
use std::fs;
use std::path::{Path, PathBuf};

/// The lines of a session; after each record the table is handed on by `overnight`.
fn lines(bytes: &[u8], overnight: fn(Table) -> Table) -> Vec<String> {
    let (mut lines, mut table, mut at) = (vec![], None, 0);
    while at < bytes.len() {
        let Some((line, length)) = turn(&mut table, &bytes[at..]) else {
            lines.push(format!("bad {at}"));
            break;
        };
        lines.push(line);
        table = table.map(overnight);
        at += length;
    }
    lines
}

fn stored() -> Vec<PathBuf> {
    let folder = Path::new(env!("CARGO_MANIFEST_DIR")).join("../../tests/sessions");
    let files = fs::read_dir(folder).unwrap().map(|file| file.unwrap().path());
    files.filter(|file| file.extension().is_some_and(|kind| kind == "session")).collect()
}

#[test]
fn stored_sessions_have_their_lines() {
    let sessions = stored();
    assert!(sessions.len() >= 25);
    for session in sessions {
        let bytes = fs::read(&session).unwrap();
        let wanted = fs::read_to_string(session.with_extension("lines")).unwrap();
        let wanted: Vec<&str> = wanted.lines().collect();
        assert_eq!(lines(&bytes, |table| table), wanted, "{}", session.display());
        assert_eq!(lines(&bytes, |table| Table::open(&table.save()).unwrap()), wanted, "{}", session.display());
    }
}
