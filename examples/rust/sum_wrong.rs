macro_rules! sum {
    ($first:literal $(, $more:literal)*) => { $first $(+ $more)* };
}

const A: u8 = 2 * sum!(1, 2; 3);
