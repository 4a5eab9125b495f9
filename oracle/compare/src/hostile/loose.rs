//! Boards for the comparison of both calls: roots of many sizes over each other and beside each other,
//! with split cells between them.

use super::{side_of, Kind};
use calls::table::Slot;
use inputs::tables::Table;
use inputs::Random;

pub const LOOSE: &[Kind] = &[
    Kind { name: "roots of all sizes, close", make: |random, amount| loose(random, amount, 2) },
    Kind { name: "roots of all sizes, apart", make: |random, amount| loose(random, amount, 8) },
];

/// One root for each `spread` squared units of the field, of one to four units a side, half of them at
/// odd ticks. Now and then a leaf is split between two of them.
fn loose(random: &mut Random, amount: usize, spread: i64) -> Table {
    let max_level = 1 + random.below(3);
    let unit = 2 << max_level;
    let field = side_of(amount, 1) * spread * unit;
    let mut table = Table::new(max_level);
    while table.count < amount {
        table.push(root(random, unit, field));
        if random.one_in(4) {
            let id = random.index(table.count);
            if table.can_split(id) {
                table.split(id);
            }
        }
    }
    table
}

fn root(random: &mut Random, unit: i64, field: i64) -> Slot {
    let step = random.pick(&[1, unit / 2, unit, unit]);
    let mut span = || {
        let low = random.within(0, field / step) * step;
        [low, low + unit * random.within(1, 4)]
    };
    let ([x0, x1], [y0, y1]) = (span(), span());
    Slot::root([x0, y0, x1, y1], random.within(0, 255))
}
