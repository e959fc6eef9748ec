// A macro that calls itself in the middle of its template: the lines behind the call move as those before it.

macro_rules! first {
    ($input:ident; $last:ident) => {
        $last.read($input)
    };
    ($input:ident; $head:ident $($tail:ident)+) => {
        match $head.read($input) {
            Err(error) => {
                note(error);
                first!($input; $($tail)+)
            }
            found => found,
        }
    };
}

fn read(input: &Input) -> Found {
    first!(input; number name text)
}
