//! Many hands or wins a call, as arrays.
//!
//! A hand is 34 counts, one for each kind: 1m to 9m, 1p to 9p, 1s to 9s, East, South, West, North, white, green, red. Its melds are
//! four bytes, each a meld ([`chi`] and so on) or 0; a meld counts as three tiles. Rows of melds or of seen tiles that aren't there
//! stand for none. In a set of kinds bit k is for the kind k.
use crate::{calls, Rules};

/// The counts of a hand.
pub type Counts = [u8; 34];
/// The melds of a hand.
pub type Melds = [u8; 4];

/// The shanten of a row that is no hand.
pub const NO_HAND: i8 = -128;
/// The waits of a row that is no hand.
pub const NO_WAITS: u64 = u64::MAX;

/// The byte of a chow, by its lowest kind.
pub const fn chi(kind: u8) -> u8 {
    1 + kind
}

/// The byte of a pung.
pub const fn pon(kind: u8) -> u8 {
    65 + kind
}

/// The byte of an open kong.
pub const fn kan(kind: u8) -> u8 {
    129 + kind
}

/// The byte of a concealed kong.
pub const fn ankan(kind: u8) -> u8 {
    193 + kind
}

/// What hands of thirteen tiles accept, a row for each hand.
#[derive(Clone, Debug, PartialEq, Eq)]
pub struct Shapes {
    pub shanten: Vec<i8>,
    /// The kinds that bring the hand nearer and of which a tile is left.
    pub accepts: Vec<u64>,
    /// How many tiles of each of these kinds are left.
    pub live: Vec<Counts>,
}

/// Which tile to discard from hands of fourteen tiles, a row for each hand.
#[derive(Clone, Debug, PartialEq, Eq)]
pub struct Discards {
    pub shanten: Vec<i8>,
    /// The kinds whose discard leaves the least shanten.
    pub kinds: Vec<u64>,
    /// At each of these kinds those that the rest then accepts.
    pub accepts: Vec<[u64; 34]>,
    /// How many tiles of those are left in all.
    pub live: Vec<Counts>,
}

/// What stands beyond the next step of hands of thirteen tiles, a row for each hand.
#[derive(Clone, Debug, PartialEq, Eq)]
pub struct Outlooks {
    /// Where it is 0 or less, the other two are 0.
    pub shanten: Vec<i8>,
    /// The sum over the accepted kinds of their live copies times the most live copies that a best discard then leaves.
    pub second: Vec<u16>,
    /// The live copies of the accepted kinds after which a best discard leaves at least five.
    pub good: Vec<u8>,
}

/// Which calls of a thrown tile bring hands of thirteen tiles nearer, four a hand: for a run of which the tile is the highest, the
/// middle or the lowest, and for a triplet.
#[derive(Clone, Debug, PartialEq, Eq)]
pub struct Calls {
    /// The byte of each meld; 0 where there is no such call.
    pub melds: Vec<[u8; 4]>,
    /// The kinds whose discard is best after it.
    pub kinds: Vec<[u64; 4]>,
    /// For each of these kinds how many copies of what is then accepted are live.
    pub live: Vec<[Counts; 4]>,
}

/// A kind that is thrown, and by whom: [`LEFT`] and so on.
pub type Thrown = [u8; 2];
/// The player before, from whom alone a run may be called.
pub const LEFT: u8 = 0;
/// The player across.
pub const ACROSS: u8 = 1;
/// The player after.
pub const RIGHT: u8 = 2;

/// A win. What isn't said is 0, as in [`Win::default`]; a flag is set where it isn't 0.
#[repr(C)]
#[derive(Clone, Copy, Debug, PartialEq, Eq)]
pub struct Win {
    /// How many tiles of each kind are concealed, without the winning tile.
    pub concealed: Counts,
    pub melds: Melds,
    /// The kind of the winning tile.
    pub winning: u8,
    /// 0 by ron, 1 by self-draw.
    pub by: u8,
    /// The winner's wind: 0 East, who is the dealer, to 3 North.
    pub seat: u8,
    /// The prevalent wind.
    pub round: u8,
    /// 1, or 2 for double riichi.
    pub riichi: u8,
    pub ippatsu: u8,
    pub rinshan: u8,
    pub chankan: u8,
    pub last: u8,
    pub first: u8,
    /// On the table, 0 to 99, each worth 300 points.
    pub counters: u8,
    /// The riichi sticks on the table, 0 to 99.
    pub sticks: u8,
    /// The red fives of m, p and s among all its tiles.
    pub reds: [u8; 3],
    /// The dora indicators, of each one more than its kind; 0 for none.
    pub dora: [u8; 5],
    /// The indicators under them.
    pub ura: [u8; 5],
    /// Always 0.
    pub zero: u8,
}

impl Default for Win {
    fn default() -> Self {
        Win {
            concealed: [0; 34],
            melds: [0; 4],
            winning: 0,
            by: 0,
            seat: 0,
            round: 0,
            riichi: 0,
            ippatsu: 0,
            rinshan: 0,
            chankan: 0,
            last: 0,
            first: 0,
            counters: 0,
            sticks: 0,
            reds: [0; 3],
            dora: [0; 5],
            ura: [0; 5],
            zero: 0,
        }
    }
}

/// The [`Score::told`] of a win with a yaku.
pub const WON: u8 = 100;
/// That of a complete hand without one.
pub const NO_YAKU: u8 = 101;
/// That of a hand that isn't complete.
pub const NO_WIN: u8 = 102;

/// What is told of a win. All but `told` is 0 where that isn't [`WON`].
#[repr(C)]
#[derive(Clone, Copy, Debug, Default, PartialEq, Eq)]
pub struct Score {
    /// Bit n for the yaku with number n.
    pub yaku: u64,
    /// The base points; of a yakuman, whose han, fu and dora are 0, 8000 for each limit.
    pub base: u32,
    /// All that the winner gains, in points, with counters and sticks.
    pub gain: u32,
    /// What the discarder pays; 0 by self-draw.
    pub discarder: u32,
    /// What the dealer pays for another's self-draw; else 0.
    pub dealer: u32,
    /// What each who isn't the dealer pays for a self-draw; else 0.
    pub other: u32,
    /// [`WON`], [`NO_YAKU`], [`NO_WIN`], or n where the win is refused as `refused Hn`; 4 where a number is in no table.
    pub told: u8,
    /// With the dora.
    pub han: u8,
    pub fu: u8,
    /// How many of the han are dora.
    pub dora: u8,
}

/// The shanten of each hand of thirteen or fourteen tiles: -1 of a complete one, 0 of one that is ready, [`NO_HAND`] of a row that
/// is none.
///
/// ```
/// let mut ready = [0; 34];
/// ready[..13].copy_from_slice(&[1, 1, 1, 1, 1, 1, 1, 1, 1, 2, 0, 1, 1]); // 123456789m1134p
/// assert_eq!(riichi_desk::arrays::shanten(&[ready, [0; 34]], &[]), [0, -128]);
/// assert_eq!(riichi_desk::arrays::waits(&[ready], &[]), [1 << 10 | 1 << 13]);
/// ```
pub fn shanten(counts: &[Counts], melds: &[Melds]) -> Vec<i8> {
    let mut shanten = vec![NO_HAND; counts.len()];
    // SAFETY: the pointers are those of slices, so they are valid for their lengths and not null, and a `&mut` overlaps nothing.
    unsafe {
        calls::riichi_shantens(counts.as_ptr(), counts.len(), melds.as_ptr(), melds.len(), shanten.as_mut_ptr(), shanten.len());
    }
    shanten
}

/// What each hand of thirteen tiles accepts.
pub fn shapes(counts: &[Counts], melds: &[Melds], seen: &[Counts]) -> Shapes {
    let hands = counts.len();
    let (mut shanten, mut accepts, mut live) = (vec![NO_HAND; hands], vec![0; hands], vec![[0; 34]; hands]);
    // SAFETY: as in `shanten`.
    unsafe {
        calls::riichi_shapes(
            counts.as_ptr(),
            hands,
            melds.as_ptr(),
            melds.len(),
            seen.as_ptr(),
            seen.len(),
            shanten.as_mut_ptr(),
            hands,
            accepts.as_mut_ptr(),
            hands,
            live.as_mut_ptr(),
            hands,
        );
    }
    Shapes { shanten, accepts, live }
}

/// Which tile to discard from each hand of fourteen tiles.
pub fn discards(counts: &[Counts], melds: &[Melds], seen: &[Counts]) -> Discards {
    let hands = counts.len();
    let (mut shanten, mut kinds) = (vec![NO_HAND; hands], vec![0; hands]);
    let (mut accepts, mut live) = (vec![[0; 34]; hands], vec![[0; 34]; hands]);
    // SAFETY: as in `shanten`.
    unsafe {
        calls::riichi_discards(
            counts.as_ptr(),
            hands,
            melds.as_ptr(),
            melds.len(),
            seen.as_ptr(),
            seen.len(),
            shanten.as_mut_ptr(),
            hands,
            kinds.as_mut_ptr(),
            hands,
            accepts.as_mut_ptr(),
            hands,
            live.as_mut_ptr(),
            hands,
        );
    }
    Discards { shanten, kinds, accepts, live }
}

/// Second and good of each hand of thirteen tiles that isn't ready. After a discard of fourteen tiles the row is that of the other
/// thirteen, and the discarded tile is one of those seen.
///
/// ```
/// let mut hand = [0; 34]; // 234m45678p34s558s
/// hand[1..4].fill(1);
/// hand[12..17].fill(1);
/// hand[20..26].copy_from_slice(&[1, 1, 2, 0, 0, 1]);
/// let told = riichi_desk::arrays::deeper(&[hand], &[], &[]);
/// assert_eq!((told.shanten[0], told.second[0], told.good[0]), (1, 165, 20));
/// ```
pub fn deeper(counts: &[Counts], melds: &[Melds], seen: &[Counts]) -> Outlooks {
    let hands = counts.len();
    let (mut shanten, mut second, mut good) = (vec![NO_HAND; hands], vec![0; hands], vec![0; hands]);
    // SAFETY: as in `shanten`.
    unsafe {
        calls::riichi_deeper(
            counts.as_ptr(),
            hands,
            melds.as_ptr(),
            melds.len(),
            seen.as_ptr(),
            seen.len(),
            shanten.as_mut_ptr(),
            hands,
            second.as_mut_ptr(),
            hands,
            good.as_mut_ptr(),
            hands,
        );
    }
    Outlooks { shanten, second, good }
}

/// Which calls of a thrown tile bring each hand of thirteen tiles nearer. The tile is not yet one of those seen.
///
/// ```
/// use riichi_desk::arrays::{calls, chi, LEFT};
/// let mut hand = [0; 34]; // 234m45678p34s558s
/// hand[1..4].fill(1);
/// hand[12..17].fill(1);
/// hand[20..26].copy_from_slice(&[1, 1, 2, 0, 0, 1]);
/// let told = calls(&[hand], &[[11, LEFT]], &[], &[]);
/// assert_eq!(told.melds[0], [0, 0, chi(11), 0]);
/// assert_eq!((told.live[0][2][25], told.live[0][2][22]), (6, 3));
/// ```
pub fn calls(counts: &[Counts], thrown: &[Thrown], melds: &[Melds], seen: &[Counts]) -> Calls {
    let hands = counts.len();
    let (mut called, mut kinds, mut live) = (vec![[0; 4]; hands], vec![[0; 4]; hands], vec![[[0; 34]; 4]; hands]);
    // SAFETY: as in `shanten`.
    unsafe {
        calls::riichi_calls(
            counts.as_ptr(),
            hands,
            melds.as_ptr(),
            melds.len(),
            seen.as_ptr(),
            seen.len(),
            thrown.as_ptr(),
            thrown.len(),
            called.as_mut_ptr(),
            hands,
            kinds.as_mut_ptr(),
            hands,
            live.as_mut_ptr(),
            hands,
        );
    }
    Calls { melds: called, kinds, live }
}

/// The kinds that each hand of thirteen tiles waits for, [`NO_WAITS`] of a row that is none.
pub fn waits(counts: &[Counts], melds: &[Melds]) -> Vec<u64> {
    let mut kinds = vec![NO_WAITS; counts.len()];
    // SAFETY: as in `shanten`.
    unsafe {
        calls::riichi_waits_of(counts.as_ptr(), counts.len(), melds.as_ptr(), melds.len(), kinds.as_mut_ptr(), kinds.len());
    }
    kinds
}

/// What each win is worth.
///
/// ```
/// use riichi_desk::arrays::{wins, Win};
/// let mut win = Win { winning: 10, seat: 1, ..Win::default() }; // win 123456789m22s34p on=2p by=ron seat=S round=E
/// win.concealed[..9].fill(1);
/// win.concealed[11..13].fill(1);
/// win.concealed[19] = 2;
/// let score = wins(&[win], riichi_desk::Rules::One)[0];
/// assert_eq!((score.han, score.fu, score.gain), (3, 30, 3900));
/// ```
pub fn wins(wins: &[Win], rules: Rules) -> Vec<Score> {
    let mut scores = vec![Score::default(); wins.len()];
    // SAFETY: as in `shanten`; both structs lie as C has them.
    unsafe {
        calls::riichi_wins(rules.number(), wins.as_ptr(), wins.len(), scores.as_mut_ptr(), scores.len());
    }
    scores
}
