// Repetitions that begin one another: the lines of a round are indented further than the line of both.

macro_rules! sizes {
    ($([$($name:ident)*] = $size:expr;)*) => {
        $($(
            impl Size for $name {
                const SIZE: usize = $size;
            }

            impl Known for $name {}
        )*)*
    };
}

sizes! {
    [A B] = 1;
    [C] = 2;
}
