// Calls that become nothing: if nothing else is in their line, the line goes.
macro_rules! nothing {
    ($($any:tt)*) => {};
}

macro_rules! one {
    () => { fn one() {} };
}

nothing!();
nothing! { a b c }

mod a {
    nothing!();
    pub struct A;
    nothing! {} nothing!();
    pub struct B; nothing!();
    nothing!(); // with a comment
    // The next call is in four lines.
    nothing!(
        a,
        b,
    );
    nothing! {} one!();

    mod b {
        nothing!();
    }
}

fn f() -> u8 {
    nothing! { a }
    nothing! { a } nothing! { b }
    g(1)
}
nothing!();
