//! Times the proved library, the plain implementation and the tuned one: the
//! tables of five runs, or with `--once` the medians of one run. A word leaves
//! only the rows whose name contains it.

use compare::timing;

fn main() {
    let mut words: Vec<String> = std::env::args().skip(1).collect();
    let once = words.first().is_some_and(|word| word == "--once");
    if once {
        words.remove(0);
    }
    let word = words.concat();
    if once {
        timing::once(&word);
    } else {
        timing::table::print(&word);
    }
}
