// A macro that another one writes, and one whose name is raw: their lines move as those of any other.

macro_rules! module {
    ($name:ident, $kind:ident) => {
        mod $name {
            macro_rules! sum {
                ($left:expr, $right:expr) => {
                    add(
                        $kind::from($left),
                        $kind::from($right),
                    )
                };
            }

            fn both() -> $kind {
                let first = sum!(1, 2);
                sum!(first, 3)
            }
        }
    };
}

module! { whole, Integer }

macro_rules! r#type {
    ($name:ident { $($field:ident),* }) => {
        struct $name {
            $(
                $field: usize,
            )*
        }
    };
}

mod types {
    r#type! { Point { across, down } }
}
