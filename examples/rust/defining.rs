macro_rules! constant {
    ($name:ident, $value:literal) => {
        macro_rules! $name {
            () => { $value };
            (twice) => { 2 * $name!() };
        }
    };
}

constant!(answer, 42);

const A: u8 = answer!();
const B: u8 = answer!(twice);
