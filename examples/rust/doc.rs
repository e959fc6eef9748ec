/// Ä
fn f<'a>(x: &'a u8) -> u8 { *x }
