// Results that are nothing: the line of a call goes with it, but stays if a `;` is left in it.
macro_rules! nothing {
    ($($any:tt)*) => {};
}

nothing! { a b c }

fn f() -> u8 {
    nothing!(a);
    nothing! { a }
    nothing! { b };
    g(1)
}

fn h(a: bool) {
    nothing!(a);
    if a {
        g(2);
    }
    nothing!(b);
    nothing!(c);
    nothing!(d);
}
