macro_rules! sum {
    ($a:tt, $b:tt) => { $a + $b };
}

macro_rules! set {
    ($($name:ident = $value:literal);* $(;)?) => {
        $(let $name = $value;)*
    };
}

fn f() -> i32 {
    set! { a = 1; b = -2; }
    let c = 2 * sum!(a, b); /* an expression */
    let d = [sum!(c, 1), 0];
    #[allow(unused)]
    sum!(c, 2);
    if c == sum!{1, 2} {}
    sum!(d, (a + b)) // what comes last
}
