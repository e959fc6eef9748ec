// Characters of several bytes before calls, in them and behind them.
macro_rules! 名 {
    ($α:ident $β:ident, $text:literal) => {
        /* é */ const $α: &str = "漢字"; /* 字 */ const $β: &str = $text;
    };
}

/* 漢 */ 名!(Ä Ë, "ß");   名! { Ö Ü, "é" } // ü
