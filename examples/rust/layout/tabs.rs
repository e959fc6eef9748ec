// Lines that begin with tabs, and a template whose lines begin with spaces.
macro_rules! tabs {
	($name:ident) => {
		fn $name() {
			g(	1, 2);
		}
	};
}

macro_rules! spaces {
    ($name:ident) => {
        fn $name() {
            g(1);
        }
    };
}

mod inner {
	tabs!(a);
	spaces!(b);
}
