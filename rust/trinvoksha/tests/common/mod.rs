//! What the tests share.

use trinvoksha::{Turn, MARKS};

/// Every field of a turn by its name, with the mark that belongs there.
pub fn fields(turn: &mut Turn) -> Vec<(&mut u64, u64)> {
    let table = &mut turn.table;
    let mut fields = vec![
        (&mut turn.number, MARKS + 1),
        (&mut turn.place, MARKS + 2),
        (&mut table.policy, MARKS + 3),
        (&mut table.now.0, MARKS + 4),
        (&mut table.idle.0, MARKS + 5),
    ];
    for (place, i) in table.places.iter_mut().zip(1..) {
        let before = MARKS + 16 * i;
        fields.extend([
            (&mut place.opened, before + 1),
            (&mut place.level, before + 2),
            (&mut place.cap.0, before + 3),
            (&mut place.gap.0, before + 4),
            (&mut place.next.0, before + 5),
            (&mut place.live, before + 6),
            (&mut place.budget.0, before + 7),
            (&mut place.remaining.0, before + 8),
            (&mut place.deadline.0, before + 9),
            (&mut place.ending, before + 10),
            (&mut place.total.0, before + 11),
        ]);
    }
    fields
}
