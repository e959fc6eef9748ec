macro_rules! first {
    ($a:tt $($b:ident),*) => { $a $b };
    ($a:ident $a:ident) => {};
}
macro_rules! second {
	($文:lit) => {};
}
macro_rules! third {
    (a) => { b };
}

fn f() {
    first!(x);
    let x = third!(文, a);
    third!(a);
    third!();
}
