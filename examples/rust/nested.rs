macro_rules! matrix {
    ($([$($cell:literal),*]),* $(,)?) => { [$([$($cell),*]),*] };
}

macro_rules! with {
    ($callback:ident!($($before:tt)*), $($name:ident: $life:lifetime),+) => {
        $callback!($($before)* $($name $life)+)
    };
}

macro_rules! fields {
    ($vis:vis $struct:ident $($name:ident $life:lifetime)+) => {
        $vis struct $struct<$($life),+> { $($name: &$life str),+ }
    };
}

static M: [[u8; 2]; 2] = matrix!([1, 2], [3, 4]);

with!(fields!(pub(crate) Names), first: 'a, last: 'b);
