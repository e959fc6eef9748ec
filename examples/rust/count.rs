/// How many trees there are.
macro_rules! count {
    () => { 0 };
    ($head:tt $($tail:tt)*) => { 1 + count!($($tail)*) };
}

const THREE: usize = count!(a [b c] d); // three
const NONE: usize = count!();
