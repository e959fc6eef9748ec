// Rounds on lines of their own, with a separator between them and without one.
macro_rules! names {
    ($($name:ident = $value:expr);* $(;)?) => {
        pub enum Name {
            $($name = $value),*
        }

        pub const ALL: &[(&str, Name)] = &[
            $(
                (stringify!($name), Name::$name)
            ),*
        ];

        pub const NUMBERS: &[u8] = &[$($value),*];

        pub fn sum() -> u8 {
            0 $(
                + $value
            )*
        }
    };
}

names! { One = 1; Two = 1 + 1; Three = 3 }
