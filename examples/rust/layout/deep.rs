// Calls that are deep in indentation, one of them in the middle of its line.
macro_rules! found {
    ($list:ident, $key:expr) => {
        match $list.get($key) {
            Some(it) => it,

            None => {
                return;
            }
        }
    };
}

fn f(lists: &[List]) {
    for list in lists {
        if list.is_open() {
                    visit(1, found!(list, "a"), || {
                        let key = found!(list, "b");
                        key
                    });
        }
    }
}
