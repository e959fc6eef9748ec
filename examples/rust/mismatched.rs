// a comment
fn é() {
	日本語 (1, [2)
}
