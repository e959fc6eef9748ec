// Repetitions without rounds: of the gaps on both sides one is left, and none between brackets.
macro_rules! implement {
    ($name:ident $([$attribute:meta])* <$($parameter:ident),*> $($method:ident = $value:expr),*) => {
        $(#[$attribute])*
        impl<$($parameter,)* R> Count<R> for $name {
            const ALL: &'static [u8] = &[
                $($value),*
            ];

            $(
                const $method: u8 = $value;
            )*

            fn sum(&self, $($method: u8),*) -> u8 {
                0
                $(
                    + $value
                )*
            }
        }

        impl Other for $name {
            $(fn $method(&self) {})*
        }
    };
}

implement!(Empty <>);
implement!(Full [inline] <A> one = 1);
