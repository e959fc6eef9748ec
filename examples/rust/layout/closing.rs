// Comments at the end of a template come along if the call ends its line. The last becomes one in brackets if the result ends with it.
macro_rules! put {
    ($at:expr, $value:expr) => {
        *$at = $value; // done
    };
}

macro_rules! read {
    ($from:expr) => {
        unsafe { *$from }
        // SAFETY: nothing else
        // writes it.
    };
}

macro_rules! next {
    ($from:expr) => {
        $from + 1 /* the next */
    };
}

macro_rules! rest {
    ($from:expr) => {
        count() - $from
        // it is less
    };
}

macro_rules! call {
    ($value:expr) => {
        g($value); // called
    };
}

macro_rules! odd {
    ($value:expr) => {
        $value.odd() // no `/* */`
    };
}

macro_rules! same {
    ($value:expr) => {
        $value // not known
    };
}

fn f(at: &mut u8, from: *const u8) -> u8 {
    put!(at, 1);
    let a = read!(from);
    let b = next!(a); // behind
    let c = rest!(b)
        .min(3);
    put!(at, 2); put!(at, 3);
    let d = g(next!(a), rest!(c));
    call!(c);
    h(call!(c));
    let e = call!(c);
    let e = odd!(d) + same!(d);
    rest!(e)
}
