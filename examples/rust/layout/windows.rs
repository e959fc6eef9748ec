// Lines that end in \r\n.
macro_rules! m {
    ($($name:ident),*) => {
        $(fn $name() {
            g(); // told
        })*
    };
}

mod inner {
    m!(a, b);
}
