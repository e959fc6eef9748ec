// Comments that document something stay comments.
macro_rules! made {
    ($name:ident) => {
        /// The first line.
        /// The second.
        pub fn $name() {} /// Of the next.
        pub fn next() {}
    };
}

mod inner {
    made!(f);
}
