// A template that begins with a repetition, called from another template and by itself.
macro_rules! inner {
    ($($value:expr),*) => {
        // each twice
        $(
            f($value);
            g($value);
        )*
    };
}

macro_rules! outer {
    ($($value:expr),*) => {
        fn a() {
            inner! { $($value),* }
            {
                inner! { 0, $($value),* }
            }
        }
    };
}

outer!(1, 2);

fn b() {
    inner! { 3 }
}
