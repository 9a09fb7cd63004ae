//! Every table of `tests/cases`, run whole.

use cases::table::{run, Answer};

/// Runs a table, says how many cases it has, and fails where a row is wrong.
fn holds(name: &str, table: &[u8], answer: Answer) {
    match run(table, answer) {
        Ok(count) => println!("{name}: {count} cases"),
        Err(wrong) => panic!("tests/cases/{name}.txt: {wrong}"),
    }
}

macro_rules! tables {
    ($($name:ident)*) => {$(
        #[test]
        fn $name() {
            let table = include_bytes!(concat!("../../../tests/cases/", stringify!($name), ".txt"));
            holds(stringify!($name), table, cases::$name::answer);
        }
    )*};
}

tables!(leaves files settings records writing moving);
