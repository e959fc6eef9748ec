// Parentheses around what a variable took, if another macro wrote it.
macro_rules! first {
    ($a:expr => $fn:path) => { $a };
}

macro_rules! function {
    ($($index:tt)+) => {
        fn f(self) {
            first!($(self.tuple.$index),+ => min)
                .map(g)
                .take(2)
        }
    };
}

function!(0);
