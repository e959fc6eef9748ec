// Comments at the beginning of a template: before calls that begin a line, and before others.
macro_rules! read {
    ($from:expr) => {
        // SAFETY: nothing else
        // reads it.

        /* or writes it */ unsafe { *$from }
    };
}

macro_rules! list {
    ($($value:expr),*) => { // of bytes
        [$($value),*]
    };
}

macro_rules! both {
    ($from:expr) => {{
        // first
        read!($from);
        g(read!($from), 2);
        read!($from)
    }};
}

fn f(from: *const u8) -> u8 {
    read!(from);
    list!(1, 2);
    let a = read!(from);
    g(read!(from), a);
    both!(from)
}
