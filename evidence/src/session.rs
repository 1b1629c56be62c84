//! "The session program" over the bindings, and questions in words, for what the published Rust answers to the same bytes.

use spoonvelvet::session::turn;
use spoonvelvet::{ElementId, Table};
use std::fmt::Display;

/// The lines for these bytes, and the table that stands at the end.
pub fn run(bytes: &[u8]) -> (Vec<String>, Option<Table>) {
    let (mut lines, mut table, mut at) = (vec![], None, 0);
    while at < bytes.len() {
        match turn(&mut table, &bytes[at..]) {
            Some((line, length)) => {
                lines.push(line);
                at += length;
            }
            None => {
                lines.push(format!("bad {at}"));
                break;
            }
        }
    }
    (lines, table)
}

/// The answer to a question in words: `sub 8`, `rank 8 1`, `verts 8`, `gcs 2,6`, `walk 8` or `prim 8`. None for other words.
pub fn ask(table: &Table, question: &str) -> Option<String> {
    let words: Vec<&str> = question.split(' ').collect();
    let element = |word: &str| word.parse().map(ElementId).ok();
    let answer = match words[..] {
        ["sub", root] => table.subelements_of(element(root)?).map(|list| listed(list.iter().map(|e| e.0))),
        ["rank", root, rank] => {
            let list = table.subelements_with_rank(element(root)?, rank.parse().ok()?);
            list.map(|list| listed(list.iter().map(|e| e.0)))
        }
        ["verts", root] => table.vertex_set(element(root)?).map(|list| listed(list.iter().map(|v| v.0))),
        ["gcs", roots] => {
            let roots = roots.split(',').map(element).collect::<Option<Vec<_>>>()?;
            table.greatest_common_subelements(&roots).map(|list| listed(list.iter().map(|e| e.0)))
        }
        ["walk", root] => {
            let edges = table.edges_in_order(element(root)?);
            edges.map(|edges| listed(edges.iter().map(|[a, b]| format!("{}-{}", a.0, b.0))))
        }
        ["prim", root] => table.has_primordial_facet(element(root)?).map(|has| if has { "yes" } else { "no" }.into()),
        _ => return None,
    };
    Some(answer.unwrap_or_else(|refused| format!("refused {}", refused.0)))
}

fn listed<T: Display>(list: impl Iterator<Item = T>) -> String {
    let words: Vec<String> = list.map(|item| item.to_string()).collect();
    if words.is_empty() {
        "none".into()
    } else {
        words.join(" ")
    }
}
