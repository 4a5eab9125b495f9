//! Writes the data of the replay programs: `replays CRATES [COUNT [SEED]]`.

mod limit_nets;
mod links;
mod loose;
mod net;
mod outline;
mod replay;
mod table;

use inputs::Random;
use std::env;
use std::path::PathBuf;

const COUNT: u64 = 12;
const SEED: u64 = 1;

fn main() {
    let mut words = env::args().skip(1);
    let crates = PathBuf::from(words.next().expect("the folder of the crates comes first"));
    let mut number = |or: u64| words.next().map_or(or, |word| word.parse().expect("a number"));
    let (count, seed) = (number(COUNT), number(SEED));
    table::replay(count, &mut Random::new(seed)).write(&crates);
    net::replay(count, &mut Random::new(seed)).write(&crates);
    outline::replay(count, &mut Random::new(seed)).write(&crates);
}
