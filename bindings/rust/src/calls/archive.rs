//! The functions of the archive, as the header file for C declares them.
use super::Answer;

extern "C" {
    pub fn hop_layout() -> u32;
    pub fn hop_start(links: *mut u32, link_words: usize, rows: *mut u32, row_words: usize, used: u32, live: u32) -> Answer;
    pub fn hop_room(links: *const u32, link_words: usize, rows: *const u32, row_words: usize, used: u32, live: u32) -> Answer;
    pub fn hop_key_number(
        links: *const u32,
        link_words: usize,
        rows: *const u32,
        row_words: usize,
        used: u32,
        live: u32,
        index: u32,
        version: u32,
    ) -> Answer;
    pub fn hop_look(
        links: *const u32,
        link_words: usize,
        rows: *const u32,
        row_words: usize,
        used: u32,
        live: u32,
        index: u32,
        version: u32,
    ) -> Answer;
    pub fn hop_replace(
        links: *const u32,
        link_words: usize,
        rows: *mut u32,
        row_words: usize,
        used: u32,
        live: u32,
        index: u32,
        version: u32,
        side: *const u32,
        side_words: usize,
    ) -> Answer;
    pub fn hop_insert(
        links: *mut u32,
        link_words: usize,
        rows: *mut u32,
        row_words: usize,
        used: u32,
        live: u32,
        side: *const u32,
        side_words: usize,
    ) -> Answer;
    pub fn hop_remove(links: *mut u32, link_words: usize, rows: *mut u32, row_words: usize, used: u32, live: u32, index: u32, version: u32)
        -> Answer;
    pub fn hop_step(links: *const u32, link_words: usize, rows: *const u32, row_words: usize, used: u32, live: u32, cursor: u32) -> Answer;
    pub fn hop_drain_step(links: *mut u32, link_words: usize, rows: *mut u32, row_words: usize, used: u32, live: u32) -> Answer;
    pub fn hop_clear(links: *mut u32, link_words: usize, rows: *mut u32, row_words: usize, used: u32, live: u32) -> Answer;
    pub fn hop_retain(
        links: *mut u32,
        link_words: usize,
        rows: *mut u32,
        row_words: usize,
        used: u32,
        live: u32,
        keep: *const u8,
        keep_bytes: usize,
    ) -> Answer;
    pub fn hop_rebuild(
        links: *mut u32,
        link_words: usize,
        rows: *mut u32,
        row_words: usize,
        used: u32,
        live: u32,
        presence: *const u8,
        presence_bytes: usize,
    ) -> Answer;
    pub fn hop_sound(links: *const u32, link_words: usize, rows: *const u32, row_words: usize, used: u32, live: u32) -> Answer;
}
