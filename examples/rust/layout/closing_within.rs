// Comments at the end of templates that are written within another one.
macro_rules! put {
    ($value:expr) => {
        g($value); // done
    };
}

macro_rules! read {
    ($from:expr) => {
        unsafe { *$from }
        // SAFETY: nothing else
        // writes it.
    };
}

macro_rules! both {
    ($from:expr) => {{
        put!(1);
        put! { 2 }
        h(read!($from), 2);
        read!($from)
    }};
}

macro_rules! each {
    ($($value:expr),*) => {
        $(put!($value);)* // each
    };
}

fn f(from: *const u8) -> u8 {
    each!(3, 4);
    both!(from)
}
