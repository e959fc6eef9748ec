// A template that is written once for each round of a macro that calls itself.
macro_rules! implement {
    ($name:ident) => {
        impl First for $name {
            fn first() {}
        }
    };
}

macro_rules! all {
    ($name:ident) => {
        implement! { $name }
    };
    ($name:ident $($more:ident)+) => {
        implement! { $name }
        all! { $($more)+ }
    };
}

all!(A B C);
