// Two calls in one line.
macro_rules! block {
    ($value:expr) => {{
        g();
        $value
    }};
}

macro_rules! one {
    ($name:ident) => {
        const $name: u8 = 1;
    };
}

one!(A); one! { B } /* both */ one!(C);

fn f() -> u8 {
    let a = block!(1) + block!(2); // both
    a
}
