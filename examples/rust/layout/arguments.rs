// Calls that are arguments of calls, of the same macro, of another one and of a function.
macro_rules! twice {
    ($value:expr) => {
        ($value, $value)
    };
}

macro_rules! one {
    () => { 1 };
}

const A: ((u8, u8), (u8, u8)) = twice!(twice!(one!()));
const B: u8 = larger(one!(), twice!(2).0);
