// Lines that go end in \r\n, are indented with tabs, or are the last, without a line feed.
macro_rules! nothing {
    () => {};
}

mod a {
	nothing!();
    nothing! {} 	
    struct A;
}
  nothing!();