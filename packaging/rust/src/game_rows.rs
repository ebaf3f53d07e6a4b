//! The structs of a game, as `riichi_desk.h` has them.

/// What a number of points has for none: no round more; a mangan for a dead hand.
pub const NOTHING: u32 = u32::MAX;
/// No outcome moves more.
pub const MOST_MOVES: usize = 40;

#[repr(C)]
#[derive(Clone, Copy, Debug, Default)]
pub struct TableRow {
    pub rules: u32,
    pub start: u32,
    pub returns: u32,
    pub extra: u32,
    pub chombo: u32,
    pub uma: [i32; 4],
    pub ties: u8,
    pub ron: u8,
    pub counters: u8,
    pub sticks: u8,
    pub liable: u8,
    pub nagashi: u8,
    pub renchan: u8,
    pub length: u8,
    pub bust: u8,
    pub stop: u8,
    pub left: u8,
    pub zero: u8,
}

#[repr(C)]
#[derive(Clone, Copy, Debug, Default)]
pub struct StateRow {
    pub points: [i32; 4],
    pub round: u8,
    pub dealer: u8,
    pub counters: u8,
    pub sticks: u8,
}

#[repr(C)]
#[derive(Clone, Copy, Debug, Default)]
pub struct ProgressRow {
    pub state: StateRow,
    pub penalties: [u32; 4],
    pub over: u32,
}

#[repr(C)]
#[derive(Clone, Copy, Debug, Default)]
pub struct WorthRow {
    pub base: u16,
    pub limits: u8,
    pub kind: u8,
    pub liable: u8,
    pub liable_limits: u8,
}

#[repr(C)]
#[derive(Clone, Copy, Debug, Default)]
pub struct OutcomeRow {
    pub kind: u16,
    pub player: u16,
    pub riichi: [u8; 4],
    pub ready: [u8; 4],
    pub nagashi: [u8; 4],
    pub wins: [WorthRow; 4],
    pub points: u32,
    pub state: StateRow,
}

#[repr(C)]
#[derive(Clone, Copy, Debug, Default)]
pub struct MoveRow {
    pub points: u32,
    pub sticks: u32,
    pub from: u8,
    pub to: u8,
    pub why: u16,
}

#[repr(C)]
#[derive(Clone, Copy, Debug, Default)]
pub struct ChangesRow {
    pub points: [i64; 4],
    pub sticks: u32,
    pub moves: u32,
}

#[repr(C)]
#[derive(Clone, Copy, Debug, Default)]
pub struct FinalRow {
    pub points: i64,
    pub bonus: i64,
    pub total: i64,
    pub penalty: u32,
    pub place: u32,
}

#[repr(C)]
#[derive(Clone, Copy, Debug, Default)]
pub struct FinalsRow {
    pub players: [FinalRow; 4],
}

#[repr(C)]
#[derive(Clone, Copy, Debug, Default)]
pub struct QuestionRow {
    pub player: u8,
    pub place: u8,
    pub riichi: [u8; 4],
}

#[repr(C)]
#[derive(Clone, Copy, Debug, Default)]
pub struct PaidRow {
    pub base: u32,
    pub discarder: u32,
    pub dealer: u32,
    pub other: u32,
}

#[repr(C)]
#[derive(Clone, Copy, Debug, Default)]
pub struct NeedRow {
    pub strictly: PaidRow,
    pub with_tie: PaidRow,
}

#[repr(C)]
#[derive(Clone, Copy, Debug, Default)]
pub struct NeedsRow {
    pub off: [NeedRow; 4],
    pub by_tsumo: NeedRow,
}
