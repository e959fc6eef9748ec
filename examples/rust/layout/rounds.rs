// Repetitions without a round, and a variable that takes nothing.
macro_rules! function {
    ($vis:vis $name:ident $(, $argument:ident)* $(=> $result:ty)?) => {
        $vis fn $name($($argument: u8),*) $(-> $result)? {
            $(take($argument);)*
            done()
        }
    };
}

function!(f);
function!(pub g, a, b => u8);
