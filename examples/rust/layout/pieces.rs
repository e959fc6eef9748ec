// Pieces of several lines: a block, and a chain of methods with a closure.
macro_rules! run {
    ($name:ident, $body:block, $value:expr) => {
        fn $name() -> u8 {
            before();
            $body
            let value = $value;
            value
        }
    };
}

mod inner {
    run!(f, {
        g();

        h()
    }, list
        .iter()
        .map(|it| {
            it + 1
        })
        .max());
}
