#[macro_export]
macro_rules! log {
    ($text:literal) => { $crate::write(1, $text) };
    ($level:ident: $text:literal) => { $crate::write($crate::Level::$level, $text) };
    ($($part:tt)*) => { $crate::log!("parts") };
}

fn f() {
    log!("plain");
    log!(Warning: "a warning");
    log!(a + b);
    crate::log!("by its path");
    other::log!("of another crate");
}
