// The text of each level of a log.
macro_rules! levels {
    ($($name:ident = $text:literal),+ $(,)?) => {
        fn text(level: Level) -> &'static str {
            match level { $(Level::$name => $text),+ }
        }
    };
}

levels! { Warning = "warning", Error = "error" }
