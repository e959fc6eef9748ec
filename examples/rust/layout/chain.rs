// A macro that calls a macro: the lines of each template move to the indentation of its call.
macro_rules! outer {
    ($name:ident: $($field:ident),*) => {
        mod made {
            inner! {
                $name,
                $($field),*
            }
        }
    };
}

macro_rules! inner {
    ($name:ident, $($field:ident),*) => {
            pub struct $name {
                $(pub $field: u8,)*
            }

            impl $name {
                pub const NONE: $name = $name { $($field: 0),* };
            }
    };
}

outer!(Point: x, y);
