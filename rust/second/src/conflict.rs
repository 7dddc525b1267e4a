//! Whether a rule's calls clash: inside the rule, with those of an earlier
//! fired rule, or in hardware. Three searches, one after the other, as each
//! rule gets the first fate that applies; each stops at its first clash.

use crate::clock::Fate;
use crate::evaluate::Call;

/// A register has at most four ports, each with a read and a write.
const METHODS: usize = 8;

/// By the methods of two calls on one register: do they clash?
type Table = [[bool; METHODS]; METHODS];

const INSIDE: Table = inside_table();
const EARLIER: Table = earlier_table();

/// In any order: write i with read j, i < j; write i with write j, i not j.
const fn inside_table() -> Table {
    let mut table = [[false; METHODS]; METHODS];
    let mut first = 0;
    while first < METHODS {
        let mut second = 0;
        while second < METHODS {
            let (i, j) = (first / 2, second / 2);
            table[first][second] = match (first % 2 == 1, second % 2 == 1) {
                (true, true) => i != j,
                (true, false) => i < j,
                (false, true) => j < i,
                (false, false) => false,
            };
            second += 1;
        }
        first += 1;
    }
    table
}

/// Earlier, then later: write i then read j, j <= i; write i then write j,
/// j < i; read i then write j, j < i.
const fn earlier_table() -> Table {
    let mut table = [[false; METHODS]; METHODS];
    let mut earlier = 0;
    while earlier < METHODS {
        let mut later = 0;
        while later < METHODS {
            let (i, j) = (earlier / 2, later / 2);
            table[earlier][later] = match (earlier % 2 == 1, later % 2 == 1) {
                (true, true) => j < i,
                (true, false) => j <= i,
                (false, true) => j < i,
                (false, false) => false,
            };
            later += 1;
        }
        earlier += 1;
    }
    table
}

fn in_table(table: &Table, first: &Call, second: &Call) -> bool {
    first.instance == second.instance
        && first.on_register
        && table[usize::from(first.method)][usize::from(second.method)]
}

fn in_hardware(first: &Call, second: &Call) -> bool {
    first.instance == second.instance && first.method == second.method && !first.niladic_value
}

/// Some pair of this rule's calls, the first before the second.
fn within(these: &[Call], clash: impl Fn(&Call, &Call) -> bool) -> bool {
    for (at, second) in these.iter().enumerate() {
        for first in &these[..at] {
            if clash(first, second) {
                return true;
            }
        }
    }
    false
}

/// Some earlier call with some call of this rule.
fn across(earlier: &[Call], these: &[Call], clash: impl Fn(&Call, &Call) -> bool) -> bool {
    for this in these {
        for call in earlier {
            if clash(call, this) {
                return true;
            }
        }
    }
    false
}

/// The fate of a rule that is available and made these calls, after rules
/// that fired and made the earlier ones.
pub fn fate(earlier: &[Call], these: &[Call]) -> Fate {
    if within(these, |first, second| in_table(&INSIDE, first, second)) {
        return Fate::Inside;
    }
    if across(earlier, these, |call, this| in_table(&EARLIER, call, this)) {
        return Fate::Earlier;
    }
    if within(these, in_hardware) || across(earlier, these, in_hardware) {
        return Fate::Hardware;
    }
    Fate::Fired
}
