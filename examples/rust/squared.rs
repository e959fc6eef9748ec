macro_rules! squared {
    ($x:expr) => { $x * $x };
}

macro_rules! one {
    () => { 1 };
}

const A: u8 = squared!(1 + 1) + one!();
