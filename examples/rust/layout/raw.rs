// Raw strings of several lines, whose lines do not move.
macro_rules! help {
    ($name:ident, $text:literal) => {
        const $name: &str = concat!(
            r#"usage:
  program "FILE"
"#,
            $text,
        );
    };
}

mod texts {
    help!(HELP, r"  -h  help
	-v  version
");
}
