// Repetitions in repetitions.
macro_rules! table {
    ($($row:ident: [$($cell:expr),*]),* $(,)?) => {
        const TABLE: &[(&str, &[u8])] = &[
            $(
                (stringify!($row), &[$($cell),*]),
            )*
        ];
    };
}

table! {
    none: [],
    one: [1],
    two: [1, 2 + 3],
}
