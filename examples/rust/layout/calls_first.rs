// Templates that begin with a call: the lines behind it move as those of what it becomes.

macro_rules! each {
    ($check:ident) => {
        $check!(A);
        $check!(B);
    };
}

macro_rules! checked {
    ($name:ident) => {{
        let it = $name::new();
        it.check();
    }};
}

fn all() {
    each! { checked }
}
