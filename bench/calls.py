#!/usr/bin/env python3
"""Prints a Rust text with functions and as many calls of one macro, each of which becomes a struct with a method: calls.py COUNT"""
import sys

MACRO = """macro_rules! point {
    ($name:ident, $($field:ident),*) => {
        pub struct $name {
            $(pub $field: i32,)*
        }

        impl $name {
            // The sum of its fields.
            pub fn sum(&self) -> i32 {
                0 $(+ self.$field)*
            }
        }
    };
}
"""
FUNCTION = """
fn f{0}(a: u32, b: &str) -> Option<u32> {{
    let x = a + {0};
    if b.is_empty() {{
        return None;
    }}
    Some(x * 2)
}}

point!(P{0}, x, y, z);
"""

if __name__ == "__main__":
    print(MACRO + "".join(FUNCTION.format(number) for number in range(int(sys.argv[1]))), end="")
