// Comments of a template: on lines of their own, behind a statement, and in a line.
macro_rules! read {
    ($from:expr, $at:expr) => {{
        let all = $from; // borrowed
        /*
         * Nothing else is borrowed.
         */
        // SAFETY: the caller has looked that it is no further
        // than the end.
        unsafe { *all.get_unchecked(/* the place */ $at) }
    }};
}

fn second(bytes: &[u8]) -> u8 {
    let first = read!(bytes, 0);
    first ^ read!(&bytes[1..], 0)
}
