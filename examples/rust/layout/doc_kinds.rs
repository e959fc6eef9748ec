// Which attributes that document something are written as comments: those whose line ends behind them, with a text of one line.
macro_rules! made {
    ($name:ident) => {
        pub mod $name {
            //! About the module.

            /** In one line. */
            pub struct One;

            /** In two
            lines. */
            pub struct Two;

            /// Says "yes", and r#"no"#.
            pub struct Quoted;

            /** Beside it. */ pub struct Beside;

            #[doc = r"Written as an attribute."]
            #[doc = r#"With a hash too many."#]
            #[doc = r"/ begins it."]
            #[doc = "In quotes."]
            ///
            pub struct Written;
        }
    };
}

made!(kinds);
