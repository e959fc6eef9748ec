// Signs that would be another one if they touched get a space.
macro_rules! minus {
    ($a:literal) => {
        [0-$a, 1 -$a]
    };
}

macro_rules! borrowed {
    ($life:lifetime) => {
        fn f<$life>(x: &$life u8) -> &'static u8;
    };
}

const A: [i8; 2] = minus!(-2);
const B: [i8; 2] = minus!(2);
borrowed!('a);
