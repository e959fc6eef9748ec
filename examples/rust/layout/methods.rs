// A repetition in an impl, whose body has several lines: behind the bracket, and on lines of its own.
macro_rules! getters {
    ($owner:ident { $($name:ident: $type:ty = $value:expr),* $(,)? }) => {
        impl $owner {
            $(pub fn $name(&self) -> $type {
                $value
            })*
        }

        impl Default for $owner {
            $(
                fn $name(&self) -> $type {
                    $value
                }
            )*
        }
    };
}

getters!(Size { wide: u16 = 1, deep: u8 = 2 });
