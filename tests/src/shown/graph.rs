//! The graph of a plan: every place that any moves can come to, with its moves after it.

use super::named::{Move, Named, Place};
use crate::oracle::{LOSING, PENDING};

const HEAD: &str = "\
digraph plan {
  rankdir=LR;
  node [fontname=\"sans-serif\", style=filled];
  edge [fontname=\"sans-serif\"];
  start [shape=point];
";

fn node(named: &Named, place: Place) -> String {
    let entry = named.entry(place);
    let (told, shape) = match entry.value {
        _ if named.met(place) => ("met".to_string(), "box, peripheries=2, fillcolor=palegreen"),
        LOSING => ("losing".to_string(), "octagon, fillcolor=lightpink"),
        PENDING => (format!("pending {}", entry.number), "ellipse, fillcolor=khaki"),
        _ => (format!("winning {}", entry.number), "box, fillcolor=palegreen"),
    };
    let [state, goal] = named.names(place);
    format!("  p{} [label=\"{state}\\n{goal}\\n{told}\", shape={shape}];\n", named.number(place))
}

fn edge(named: &Named, place: Place, one: Move) -> String {
    let planned = named.planned(place, one.action);
    let kind = if planned { "penwidth=3" } else { "color=gray50, fontcolor=gray50, style=dashed" };
    let [from, to] = [place, one.to].map(|end| named.number(end));
    format!("  p{from} -> p{to} [label=\"{}\", {kind}];\n", named.action(one.action))
}

fn with_moves(named: &Named, place: Place) -> String {
    let moves = named.moves(place).filter(|_| !named.met(place));
    node(named, place) + &moves.map(|one| edge(named, place, one)).collect::<String>()
}

/// The places that are drawn, as they are drawn.
pub fn places(named: &Named) -> Vec<Place> {
    named.reached(|_, _| true)
}

pub fn text(named: &Named) -> String {
    let places = places(named).into_iter().map(|place| with_moves(named, place));
    let start = format!("  start -> p{} [penwidth=3];\n", named.number(named.start()));
    format!("{HEAD}{start}{}}}\n", places.collect::<String>())
}
