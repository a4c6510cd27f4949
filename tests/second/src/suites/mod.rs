//! What is compared, suite by suite.

mod bags;
mod books;
mod coins;
mod days;
mod examples;
mod image_damage;
mod image_faults;
mod images;
mod insert_strike;
mod large;
mod merges;
mod repairs;
mod sessions;
mod store_damage;
mod store_faults;
mod stretches;
mod ticket_faults;
mod tickets;

use crate::run::{Outcome, Run};

pub struct Suite {
    pub name: &'static str,
    pub play: fn(&mut Run) -> Outcome,
}

pub fn all() -> impl Iterator<Item = &'static Suite> {
    ALL.iter()
}

/// The quick ones first.
static ALL: [Suite; 18] = [
    suite("document 01's examples", examples::play),
    suite("what more coins cost", coins::play),
    suite("named faults of images", image_faults::play),
    suite("named faults of stores", store_faults::play),
    suite("busiest stretches", stretches::play),
    suite("bags", bags::play),
    suite("books", books::play),
    suite("ticket walls", tickets::play),
    suite("named faults of edition 2", ticket_faults::play),
    suite("two coin doors", merges::play),
    suite("days with a clock change", days::play),
    suite("insert and strike", insert_strike::play),
    suite("lists of calls on small stores", sessions::play),
    suite("stores brought back to sound", repairs::play),
    suite("images", images::play),
    suite("damaged images", image_damage::play),
    suite("lists of calls on the largest stores", large::play),
    suite("damaged stores", store_damage::play),
];

const fn suite(name: &'static str, play: fn(&mut Run) -> Outcome) -> Suite {
    Suite { name, play }
}
