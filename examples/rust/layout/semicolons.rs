// Results of statements that end with a `;`: that of the call goes.
macro_rules! set {
    ($name:ident) => {
        let $name = 1;
    };
}

macro_rules! call {
    ($name:ident) => {
        g($name)
    };
}

macro_rules! both {
    ($name:ident) => {
        set!($name);
        call!($name);
    };
}

fn f() {
    set!(a); // first
    call!(a); // second
    set!(b); set!(c);
    set! { d };
    #[cfg(x)]
    set!(e);
    both!(e);
    call!(c)
}
