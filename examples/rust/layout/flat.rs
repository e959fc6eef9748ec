// Repetitions that are no further indented than the brackets around them: their rounds are, as in the template.

macro_rules! codes {
    ($( $(#[$note:meta])* $name:ident = $code:literal; )+) => {
        impl Code {
        $(
            $(#[$note])*
            pub const $name: Code = Code($code);
        )+
        }

        pub const ALL: &[Code] = &[
            Code(0),
        $(
            Code::$name,
        )+
        ];
    };
}

mod codes {
    codes! {
        #[cfg(found)]
        FOUND = 1;
        LOST = 2;
    }
}
