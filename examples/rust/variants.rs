// An enum, and the text of each of its variants.
macro_rules! variants {
    ($($name:ident = $text:literal),+ $(,)?) => {
        #[derive(Clone, Copy)]
        pub enum Level {
            $($name),+
        }

        impl Level {
            pub fn text(self) -> &'static str {
                match self {
                    $(Level::$name => $text,)+
                }
            }
        }
    };
}

variants! {
    Warning = "warning",
    Error = "error",
}
