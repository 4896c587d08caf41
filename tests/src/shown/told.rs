//! What is told of a plan: what the start is worth, and the places that the plan's own moves can come to.

use super::named::{Move, Named, Place};
use crate::oracle::{LOSING, PENDING, WINNING};

fn outlook(named: &Named) -> &'static str {
    match named.entry(named.start()).value {
        LOSING => "From the start all is lost.",
        PENDING => "From the start the goal can be hoped for, and is not sure.",
        _ => "From the start the goal is sure.",
    }
}

fn moves(number: usize) -> String {
    if number == 1 {
        "one move".to_string()
    } else {
        format!("{number} moves")
    }
}

fn head(named: &Named, place: Place) -> String {
    let entry = named.entry(place);
    let told = if named.met(place) {
        "the goal is met".to_string()
    } else if entry.value == LOSING {
        "lost".to_string()
    } else {
        let (action, moves) = (named.action(entry.action.into()), moves(entry.number));
        match entry.value {
            PENDING => format!("{action}; with luck {moves} from safety"),
            _ => format!("{action}; safe, and at most {moves} from the goal"),
        }
    };
    format!("{}: {told}\n", named.names(place).join(", "))
}

/// The outcome that is told as spoiling an action: the last one where all is lost, or else the last one that is not safe.
fn spoiler(named: &Named, place: Place, action: usize) -> Option<Place> {
    let unsafe_ones = || {
        let outcomes = named.moves(place).filter(|one: &Move| one.action == action).map(|one| one.to);
        outcomes.filter(|&to| named.entry(to).value != WINNING)
    };
    unsafe_ones().filter(|&to| named.entry(to).value == LOSING).last().or(unsafe_ones().last())
}

fn spoilt(named: &Named, place: Place, action: usize) -> String {
    let to = spoiler(named, place, action).expect("no open action of a pending place is sure");
    let how = if named.entry(to).value == LOSING { "where all is lost" } else { "which is not safe" };
    let to = named.names(to).join(", ");
    format!("    {} is not sure: it may lead to {to}, {how}\n", named.action(action))
}

/// The actions that are open at a place, the lowest first.
pub fn open(named: &Named, place: Place) -> Vec<usize> {
    let mut actions: Vec<usize> = named.moves(place).map(|one| one.action).collect();
    actions.dedup();
    actions
}

fn reasons(named: &Named, place: Place) -> String {
    match named.entry(place).value {
        LOSING => "    nothing that is open here can lead to the goal\n".to_string(),
        PENDING => open(named, place).into_iter().map(|action| spoilt(named, place, action)).collect(),
        _ => String::new(),
    }
}

/// The places that are told, as they are told.
pub fn places(named: &Named) -> Vec<Place> {
    named.reached(|place, action| named.planned(place, action))
}

/// What is told of a place.
pub fn place(named: &Named, place: Place) -> String {
    head(named, place) + &reasons(named, place)
}

pub fn text(named: &Named) -> String {
    let places = places(named).into_iter().map(|at| place(named, at));
    format!("{}\n{}", outlook(named), places.collect::<String>())
}
