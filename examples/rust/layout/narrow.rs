// A template on one line, and an input of several lines.
macro_rules! point { ($($field:ident: $value:expr),* $(,)?) => { Point { $($field: $value),* } }; }

fn f() -> Point {
    point! {
        x: 1,
        y: g(
            2,
            3,
        ),
    }
}
