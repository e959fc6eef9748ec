// Lines that end with a carriage return and a line feed do so behind comments too.
macro_rules! made {
    ($name:ident) => {
        /// Of the first.
        /** Of both. */
        pub struct $name;
    };
}

made!(First);
