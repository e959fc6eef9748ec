// Repetitions that begin in the line of their template's bracket.
macro_rules! constants {
    ($($name:ident = $value:expr;)*) => ($(
        pub const $name: u8 = $value;
    )*);
}

macro_rules! functions {
    ($($name:ident => $text:expr),*) => { $(
        pub fn $name() -> &'static str {
            $text
        }
    )* };
}

constants! { A = 1; B = 2; }

mod text {
    functions! { first => "1", second => "2" }
}
