m!(); // nothing is defined yet

mod inner {
    macro_rules! m {
        () => { const A: u8 = 1; };
    }
    m!();
}

m!(); // what a module defines ends with it

#[macro_use]
pub(crate) mod used {
    macro_rules! m {
        () => { const B: u8 = 2; };
    }
}

m!(); // but not under that attribute

fn hidden() -> u8 {
    macro_rules! m {
        () => { 3 };
    }
    m!()
}

m![];
