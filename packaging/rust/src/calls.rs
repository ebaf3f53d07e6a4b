//! The calls of `riichi_desk.h`, as they are.
use crate::arrays::{Score, Win};
use crate::game_rows::{ChangesRow, FinalsRow, MoveRow, NeedsRow, OutcomeRow, ProgressRow, QuestionRow, TableRow, WorthRow};

pub const MOST_ANSWER: usize = 3072;
pub const MOST_JSON: usize = 12288;
pub const MOST_STUDY: usize = 65536;

extern "C" {
    pub fn riichi_answer(rules: u32, line: *const u8, line_len: usize, room: *mut u8, room_len: usize) -> usize;
    pub fn riichi_json(rules: u32, line: *const u8, line_len: usize, room: *mut u8, room_len: usize) -> usize;
    pub fn riichi_explain(rules: u32, line: *const u8, line_len: usize, room: *mut u8, room_len: usize) -> usize;
    pub fn riichi_explain_json(rules: u32, line: *const u8, line_len: usize, room: *mut u8, room_len: usize) -> usize;
    pub fn riichi_study(
        line: *const u8,
        line_len: usize,
        places: *mut [u16; 564],
        places_len: usize,
        rows: *mut [u64; 152],
        rows_len: usize,
        worths: *mut [u64; 57],
        worths_len: usize,
        room: *mut u8,
        room_len: usize,
    ) -> usize;
    pub fn riichi_rules(text: *const u8, text_len: usize, wrong: *mut usize) -> u32;
    pub fn riichi_version(room: *mut u8, room_len: usize) -> usize;
    pub fn riichi_answer_lines(
        rules: u32,
        text: *const u8,
        text_len: usize,
        room: *mut u8,
        room_len: usize,
        taken: *mut usize,
    ) -> usize;
    pub fn riichi_json_lines(
        rules: u32,
        text: *const u8,
        text_len: usize,
        room: *mut u8,
        room_len: usize,
        taken: *mut usize,
    ) -> usize;
    pub fn riichi_shantens(
        counts: *const [u8; 34],
        counts_len: usize,
        melds: *const [u8; 4],
        melds_len: usize,
        shanten: *mut i8,
        shanten_len: usize,
    ) -> usize;
    pub fn riichi_shapes(
        counts: *const [u8; 34],
        counts_len: usize,
        melds: *const [u8; 4],
        melds_len: usize,
        seen: *const [u8; 34],
        seen_len: usize,
        shanten: *mut i8,
        shanten_len: usize,
        accepts: *mut u64,
        accepts_len: usize,
        live: *mut [u8; 34],
        live_len: usize,
    ) -> usize;
    pub fn riichi_deeper(
        counts: *const [u8; 34],
        counts_len: usize,
        melds: *const [u8; 4],
        melds_len: usize,
        seen: *const [u8; 34],
        seen_len: usize,
        shanten: *mut i8,
        shanten_len: usize,
        second: *mut u16,
        second_len: usize,
        good: *mut u8,
        good_len: usize,
    ) -> usize;
    pub fn riichi_calls(
        counts: *const [u8; 34],
        counts_len: usize,
        melds: *const [u8; 4],
        melds_len: usize,
        seen: *const [u8; 34],
        seen_len: usize,
        thrown: *const [u8; 2],
        thrown_len: usize,
        called: *mut [u8; 4],
        called_len: usize,
        kinds: *mut [u64; 4],
        kinds_len: usize,
        live: *mut [[u8; 34]; 4],
        live_len: usize,
    ) -> usize;
    pub fn riichi_discards(
        counts: *const [u8; 34],
        counts_len: usize,
        melds: *const [u8; 4],
        melds_len: usize,
        seen: *const [u8; 34],
        seen_len: usize,
        shanten: *mut i8,
        shanten_len: usize,
        kinds: *mut u64,
        kinds_len: usize,
        accepts: *mut [u64; 34],
        accepts_len: usize,
        live: *mut [u8; 34],
        live_len: usize,
    ) -> usize;
    pub fn riichi_waits_of(
        counts: *const [u8; 34],
        counts_len: usize,
        melds: *const [u8; 4],
        melds_len: usize,
        kinds: *mut u64,
        kinds_len: usize,
    ) -> usize;
    pub fn riichi_wins(rules: u32, wins: *const Win, wins_len: usize, scores: *mut Score, scores_len: usize) -> usize;
    pub fn riichi_game_table(name: u32, table: *mut TableRow) -> u32;
    pub fn riichi_game_table_fault(table: *const TableRow) -> u32;
    pub fn riichi_game_first(table: *const TableRow, progress: *mut ProgressRow) -> u32;
    pub fn riichi_game_after(
        table: *const TableRow,
        progress: *mut ProgressRow,
        outcomes: *const OutcomeRow,
        outcomes_len: usize,
        fault: *mut u32,
    ) -> usize;
    pub fn riichi_game_moves(
        table: *const TableRow,
        progress: *const ProgressRow,
        outcome: *const OutcomeRow,
        moves: *mut MoveRow,
        moves_len: usize,
        changes: *mut ChangesRow,
    ) -> u32;
    pub fn riichi_game_finals(table: *const TableRow, progress: *const ProgressRow, finals: *mut FinalsRow) -> u32;
    pub fn riichi_game_needs(
        table: *const TableRow,
        progress: *const ProgressRow,
        question: *const QuestionRow,
        needs: *mut NeedsRow,
    ) -> u32;
    pub fn riichi_game_worth(
        table: *const TableRow,
        progress: *const ProgressRow,
        winner: u32,
        by: u32,
        hand: *const Win,
        worth: *mut WorthRow,
    ) -> u32;
    pub fn riichi_game_lines(
        rules: u32,
        text: *const u8,
        text_len: usize,
        from: usize,
        room: *mut u8,
        room_len: usize,
        taken: *mut usize,
    ) -> usize;
    pub fn riichi_game_base(rules: u32, by: u32, han: u32, fu: u32) -> u32;
}
