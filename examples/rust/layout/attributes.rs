// Attributes in a template and in an input, and before a call.
macro_rules! options {
    ($(#[$meta:meta])* $name:ident { $($field:ident),* }) => {
        $(#[$meta])*
        #[derive(Debug, Clone)]
        pub struct $name {
            $(pub $field: bool,)*
        }
    };
}

#[allow(dead_code)]
options! { #[non_exhaustive] #[must_use] Options { all, none } }

options! { Plain { one } }
