//! Questions in words: `sub 8`, `rank 8 1`, `verts 8`, `gcs 2,6`, `walk 8`, `prim 8`.

use crate::desk::{guarded, numbered};
use eyre::{Report, Result, bail, eyre};
use hypershape::flat::*;
use std::fmt::Display;
use tinyset::Set64;

pub fn ask(space: &Space, question: &str, rules: bool) -> Result<String> {
    let words: Vec<&str> = question.split_whitespace().collect();
    let element = |word: &str| number(space, word, rules);
    guarded(|| match words[..] {
        ["sub", root] => Ok(listed(space.get(element(root)?).subelements().map(|e| e.id()))),
        ["rank", root, rank] => {
            Ok(listed(space.get(element(root)?).subelements_with_rank(rank.parse()?).map(|e| e.id())))
        }
        ["verts", root] => Ok(listed(space.get(element(root)?).vertex_set().map(|v| v.id()))),
        ["gcs", ref roots @ ..] => {
            let mut set = Set64::new();
            for root in roots.iter().flat_map(|roots| roots.split(',')) {
                set.insert(element(root)?);
            }
            Ok(listed(space.greatest_common_subelements(set).map_err(wrong_kind)?))
        }
        ["prim", root] => {
            let polytope = space.get(element(root)?).as_polytope().map_err(wrong_kind)?;
            Ok(if polytope.has_primordial_facet() { "yes" } else { "no" }.into())
        }
        ["walk", root] => walk(space, element(root)?, rules),
        _ => bail!("no question: {question}"),
    })
}

fn number(space: &Space, word: &str, rules: bool) -> Result<ElementId> {
    let number: u32 = word.parse()?;
    if rules && number as usize >= space.probe_counts()[0] {
        bail!("reply 4");
    }
    Ok(ElementId(number))
}

fn wrong_kind(error: Report) -> Report {
    numbered(error, 6)
}

fn listed<T: Display>(list: impl IntoIterator<Item = T>) -> String {
    let words: Vec<String> = list.into_iter().map(|item| item.to_string()).collect();
    if words.is_empty() { "none".into() } else { words.join(" ") }
}

/// The edges as the Rust gives them; by the rules from the lowest vertex to its lower neighbour, and 7 unless they are all.
fn walk(space: &Space, root: ElementId, rules: bool) -> Result<String> {
    let face = space.get(root).as_face().map_err(wrong_kind)?;
    let edges = face.edges_in_order().map_err(|error| numbered(error, 7))?;
    let mut edges: Vec<[u32; 2]> = edges.map(|edge| edge.map(|v| v.id().0)).collect();
    if rules {
        let goes_round = edges.last().is_some_and(|last| last[1] == edges[0][0]);
        if edges.len() != face.edges().count() || !goes_round {
            return Err(eyre!("reply 7"));
        }
        turn(&mut edges);
    }
    Ok(listed(edges.iter().map(|[a, b]| format!("{a}-{b}"))))
}

fn turn(edges: &mut [[u32; 2]]) {
    let start = (0..edges.len()).min_by_key(|&i| edges[i][0]).unwrap_or(0);
    edges.rotate_left(start);
    if edges[0][1] > edges[edges.len() - 1][0] {
        edges.reverse();
        edges.iter_mut().for_each(|edge| edge.reverse());
    }
}

/// Every question on a root, or on all elements.
pub fn of_root(space: &Space, root: &str) -> Vec<String> {
    let roots = match root.parse() {
        Ok(root) => root..root + 1,
        Err(_) => 0..space.probe_counts()[0] as u32,
    };
    roots.flat_map(|root| of_element(space, root)).collect()
}

fn of_element(space: &Space, root: u32) -> Vec<String> {
    let mut questions = vec![format!("sub {root}"), format!("verts {root}")];
    questions.extend((0..=space.probe_rank(ElementId(root)) + 1).map(|rank| format!("rank {root} {rank}")));
    questions.extend(["walk", "prim", "gcs"].map(|question| format!("{question} {root}")));
    let boundary = space.probe_boundary(ElementId(root));
    for (i, a) in boundary.iter().enumerate() {
        questions.extend(boundary[i + 1..].iter().map(|b| format!("gcs {a},{b}")));
    }
    questions
}
