// The condition of a call, before each item that the call becomes.
macro_rules! items {
    ($name:ident) => {
        pub struct $name;

        impl $name {}
    };
}

macro_rules! rounds {
    ($($name:ident)*) => { $(
        pub fn $name() {
            g()
        }
    )* };
}

macro_rules! blocks {
    ($($name:ident $(, $other:ident)*);*) => { $({
        f($name $(, $other)*);
    })* };
}

#[cfg(unix)]
items!(Unix);

mod inner {
    #[cfg(unix)]
    rounds!(a b);
}

fn blocks() {
    blocks! { a; b, c }
}
