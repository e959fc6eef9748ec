//! The functions of `include/cuvolemin.h`.

unsafe extern "C" {
    pub fn tt_text_to_bytes(
        text: *const u8,
        text_len: usize,
        out: *mut u8,
        out_len: usize,
        written: *mut usize,
        at: *mut usize,
    ) -> u32;

    pub fn tt_bytes_to_text(
        bytes: *const u8,
        bytes_len: usize,
        out: *mut u8,
        out_len: usize,
        written: *mut usize,
        at: *mut usize,
    ) -> u32;

    pub fn tt_bytes_to_tokens(
        bytes: *const u8,
        bytes_len: usize,
        out: *mut u8,
        out_len: usize,
        written: *mut usize,
        tokens: *mut usize,
        tokens_len: usize,
        found: *mut usize,
        at: *mut usize,
    ) -> u32;

    pub fn tt_expand_text(
        text: *const u8,
        text_len: usize,
        out: *mut u8,
        out_len: usize,
        written: *mut usize,
        at: *mut usize,
    ) -> u32;

    pub fn tt_expand_text_with(
        text: *const u8,
        text_len: usize,
        root: *const u8,
        root_len: usize,
        only: *const u8,
        only_len: usize,
        cfg: *const u8,
        cfg_len: usize,
        everywhere: u32,
        one_line: u32,
        limit: usize,
        max_tokens: usize,
        out: *mut u8,
        out_len: usize,
        written: *mut usize,
        findings: *mut usize,
        findings_len: usize,
        found: *mut usize,
        at: *mut usize,
    ) -> u32;

    pub fn tt_expand_bytes(
        arms: *const u8,
        arms_len: usize,
        input: *const u8,
        input_len: usize,
        out: *mut u8,
        out_len: usize,
        written: *mut usize,
        at: *mut usize,
    ) -> u32;

    pub fn tt_check_bytes(bytes: *const u8, bytes_len: usize, at: *mut usize) -> u32;
}
