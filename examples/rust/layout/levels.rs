// A match with an arm for each round, in a module.
macro_rules! levels {
    ($($name:ident = $text:literal),+ $(,)?) => {
        impl Level {
            pub fn text(self) -> &'static str {
                match self {
                    $(Level::$name => $text),+
                }
            }
        }
    };
}

mod log {
    levels! { Warning = "warning", Error = "error" }
}
