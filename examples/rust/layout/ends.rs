// Comments at the beginning and at the end of a template come along with calls that begin and end their lines.
macro_rules! m {
    ($name:ident) => {
        // what it is
        const $name: u8 = 1; // one
        // the end
    };
}

m!(A);
m! { B } // behind
