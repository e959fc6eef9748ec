// Calls in the middle of expressions, whose results get parentheses or need none.
macro_rules! sum {
    ($first:expr, $second:expr) => {
        $first
            + $second
    };
}

fn f(a: u8, b: u8) -> u8 {
    let c = 2 * sum!(a, b) * 3;
    let d = [sum!(a, b), c];
    d.iter()
        .map(|&it| 4 * sum!(it, c))
        .max()
}
