// An impl for each type, with a blank line and a comment in it.
macro_rules! sizes {
    ($($type:ty = $size:expr);* $(;)?) => {
        $(
            impl Size for $type {
                const SIZE: usize = $size;

                fn size(&self) -> usize {
                    // the same for each value
                    Self::SIZE
                }
            }
        )*
    };
}

sizes! { u8 = 1; [u8; 2] = 2 * WORD; }
