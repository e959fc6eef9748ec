// Comments at the end of templates that end with repetitions.
macro_rules! all {
    ($($value:expr),*) => {
        $(g($value);)* // that is all
    };
}

macro_rules! sum {
    ($($value:expr),*) => {
        0 $(+ $value)*
        // in all
    };
}

macro_rules! constants {
    ($($name:ident)*) => {
        $(
            const $name: u8 = 1; // one
        )*
        // the end
    };
}

constants!(A B);

fn f(a: u8, b: u8) -> u8 {
    all!(a, b);
    let c = sum!(a, b);
    all!();
    c
}
