let 日本 = "é";
	let ß
