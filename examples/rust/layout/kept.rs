// Comments of an input: inside a piece they stay, beside one they do not.
macro_rules! pair {
    ($left:expr, $right:expr) => {
        ($right, $left)
    };
}

fn f(a: (u8, u8)) -> (u8, u8) {
    let b = pair!(/* left */ 1 /* one */ + 2, 3 // right
    );
    pair!(
        a.0 // the first
            + 1,
        b.1
    )
}
