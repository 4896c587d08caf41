//! Holds the oracle itself to the answers that the rules give in full.

use crate::make::known::{bare, busy_plate, early, edges, one_plate, BUSY_DRAWER_TEXT, ONE_PLATE_TEXT};
use crate::oracle::{listing, Oracle, ROOM};

fn expect(what: &str, good: bool) {
    if !good {
        println!("the oracle is wrong: {what}");
        std::process::exit(1);
    }
}

/// Ends the run unless all given texts, edges and lengths come out.
pub fn known() {
    let lengths = [one_plate().len(), bare(0).len(), early().len()];
    expect("lengths of the given jobs", lengths == [59, 25, 27]);
    expect("listing of One plate", listing(&one_plate()) == ONE_PLATE_TEXT);
    expect("listing of One plate with the drawer busy", listing(&busy_plate(1)) == BUSY_DRAWER_TEXT);
    expect("listing of Bare with mark 0", listing(&bare(0)) == "start 0 0 losing\n0 0 losing - 0\n");
    expect("listing of Bare with mark 1", listing(&bare(1)) == "start 0 0 winning\n0 0 winning - 0\n");
    let early_text = "start 0 1 losing\n0 0 winning - 0\n0 1 losing - 0\n";
    expect("listing of Early", listing(&early()) == early_text);
    let plate = Oracle::new(&one_plate());
    expect("room for One plate", plate.plan(47)[0] == ROOM && plate.plan(48)[0] == 0);
    for (index, (job, refused)) in edges().iter().enumerate() {
        expect(&format!("edge {index}"), Oracle::new(job).refused() == *refused);
    }
}
