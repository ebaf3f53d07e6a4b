//! Suit rows: for each number of sets up to four, without and with a pair, the least number of tiles that a choice of
//! blocks lacks, and the ranks that some least choice lacks. Vectors of eight words; tables of all patterns without melds.
//!
//! All that is unsafe here is SSE2 on registers, which every x86-64 has.
use std::arch::x86_64::*;

/// Eight words, one for each number of sets. A word is the lack, nine bits higher than the ranks that no least choice
/// lacks: so the lesser of two words has the lesser lack, and where the lacks are equal, both words' bits joined by
/// *and* are the ranks of both.
#[derive(Clone, Copy)]
pub struct Words(__m128i);

const RANKS: i16 = 511;
/// More than any choice lacks; sums stop here.
const NONE: i16 = i16::MAX;

impl Words {
    #[inline(always)]
    pub fn splat(word: i16) -> Words {
        Words(unsafe { _mm_set1_epi16(word) })
    }

    #[inline(always)]
    fn first(word: i16) -> Words {
        Words(unsafe { _mm_setr_epi16(word, NONE, NONE, NONE, NONE, NONE, NONE, NONE) })
    }

    #[inline(always)]
    pub fn and(self, other: Words) -> Words {
        Words(unsafe { _mm_and_si128(self.0, other.0) })
    }

    #[inline(always)]
    pub fn or(self, other: Words) -> Words {
        Words(unsafe { _mm_or_si128(self.0, other.0) })
    }

    /// The sum, which stops at none.
    #[inline(always)]
    pub fn add(self, other: Words) -> Words {
        Words(unsafe { _mm_adds_epi16(self.0, other.0) })
    }

    #[inline(always)]
    pub fn min(self, other: Words) -> Words {
        Words(unsafe { _mm_min_epi16(self.0, other.0) })
    }

    /// All bits where the words are equal.
    #[inline(always)]
    pub fn same(self, other: Words) -> Words {
        Words(unsafe { _mm_cmpeq_epi16(self.0, other.0) })
    }

    #[inline(always)]
    pub fn not(self) -> Words {
        Words(unsafe { _mm_xor_si128(self.0, _mm_set1_epi16(-1)) })
    }

    /// None but where all bits are chosen.
    #[inline(always)]
    pub fn only(self, chosen: Words) -> Words {
        Words(unsafe { _mm_or_si128(self.0, _mm_andnot_si128(chosen.0, _mm_set1_epi16(NONE))) })
    }

    /// The same choices with one set more.
    #[inline(always)]
    fn with_set(self) -> Words {
        Words(unsafe { _mm_or_si128(_mm_slli_si128(self.0, 2), _mm_setr_epi16(NONE, 0, 0, 0, 0, 0, 0, 0)) })
    }

    /// The lacks alone.
    #[inline(always)]
    fn lacks(self) -> Words {
        Words(unsafe { _mm_srli_epi16(self.0, 9) })
    }

    /// At each number of sets what was at four less it, and none above.
    #[inline(always)]
    pub fn rest_of_four(self) -> Words {
        unsafe {
            let swapped = _mm_shuffle_epi32(_mm_shufflehi_epi16(_mm_shufflelo_epi16(self.0, 0x1b), 0x1b), 0x4e);
            Words(_mm_or_si128(_mm_srli_si128(swapped, 6), _mm_setr_epi16(0, 0, 0, 0, 0, NONE, NONE, NONE)))
        }
    }

    /// The word of so many sets, everywhere.
    #[inline(always)]
    fn spread<const SETS: usize>(self) -> Words {
        unsafe {
            let pairs = match SETS {
                0 => _mm_shufflelo_epi16(self.0, 0),
                1 => _mm_shufflelo_epi16(self.0, 0x55),
                2 => _mm_shufflelo_epi16(self.0, 0xaa),
                3 => _mm_shufflelo_epi16(self.0, 0xff),
                _ => _mm_shufflehi_epi16(self.0, 0),
            };
            Words(if SETS < 4 { _mm_unpacklo_epi64(pairs, pairs) } else { _mm_unpackhi_epi64(pairs, pairs) })
        }
    }

    /// The first of all words joined, two by two.
    #[inline(always)]
    fn folded(self, join: impl Fn(Words, Words) -> Words) -> i16 {
        unsafe {
            let half = join(self, Words(_mm_shuffle_epi32(self.0, 0x4e)));
            let quarter = join(half, Words(_mm_shuffle_epi32(half.0, 0xb1)));
            let whole = join(quarter, Words(_mm_shufflelo_epi16(quarter.0, 0xb1)));
            _mm_cvtsi128_si32(whole.0) as i16
        }
    }

    #[inline(always)]
    pub fn least(self) -> i16 {
        self.folded(Words::min)
    }

    /// A bit for each byte that is all ones.
    #[inline(always)]
    pub fn bits(self) -> u32 {
        (unsafe { _mm_movemask_epi8(self.0) }) as u32
    }
}

/// The least of some words, and the ranks that any of them has where it is least.
#[inline(always)]
fn least_of<const SIZE: usize>(words: [Words; SIZE]) -> Words {
    if SIZE == 1 {
        return words[0];
    }
    let least = words[1..].iter().fold(words[0], |least, word| least.min(*word));
    let bound = least.or(Words::splat(RANKS));
    words[1..].iter().fold(words[0].min(bound), |all, word| all.and(word.min(bound)))
}

/// Entries by sets, without a pair and with one.
pub trait Entries: Copy {
    fn none() -> Self;
    /// Nothing chosen, nothing lacking.
    fn nothing() -> Self;
    fn with_set(self) -> Self;
    fn with_pair(self) -> Self;
    fn lacking(self, cost: Words) -> Self;
    fn least<const SIZE: usize>(all: [Self; SIZE]) -> Self;
}

/// Up to four sets: words without a pair and with one.
#[derive(Clone, Copy)]
pub struct Row {
    pub plain: Words,
    pub paired: Words,
}

impl Entries for Row {
    #[inline(always)]
    fn none() -> Row {
        Row { plain: Words::splat(NONE), paired: Words::splat(NONE) }
    }

    #[inline(always)]
    fn nothing() -> Row {
        Row { plain: Words::first(RANKS), paired: Words::splat(NONE) }
    }

    #[inline(always)]
    fn with_set(self) -> Row {
        Row { plain: self.plain.with_set(), paired: self.paired.with_set() }
    }

    #[inline(always)]
    fn with_pair(self) -> Row {
        Row { plain: Words::splat(NONE), paired: self.plain }
    }

    #[inline(always)]
    fn lacking(self, cost: Words) -> Row {
        Row { plain: self.plain.add(cost), paired: self.paired.add(cost) }
    }

    #[inline(always)]
    fn least<const SIZE: usize>(all: [Row; SIZE]) -> Row {
        Row { plain: least_of(all.map(|row| row.plain)), paired: least_of(all.map(|row| row.paired)) }
    }
}

/// Up to three sets: four words without a pair, then four with one. Half the work of a row.
#[derive(Clone, Copy)]
pub struct HalfRow(Words);

impl HalfRow {
    pub fn whole(self) -> Row {
        unsafe {
            let above = _mm_setr_epi16(0, 0, 0, 0, NONE, NONE, NONE, NONE);
            let paired = _mm_or_si128(_mm_srli_si128(self.0 .0, 8), above);
            Row { plain: self.0.or(Words(above)), paired: Words(paired) }
        }
    }
}

impl Entries for HalfRow {
    #[inline(always)]
    fn none() -> HalfRow {
        HalfRow(Words::splat(NONE))
    }

    #[inline(always)]
    fn nothing() -> HalfRow {
        HalfRow(Words::first(RANKS))
    }

    #[inline(always)]
    fn with_set(self) -> HalfRow {
        let first = unsafe { _mm_setr_epi16(NONE, 0, 0, 0, NONE, 0, 0, 0) };
        HalfRow(Words(unsafe { _mm_or_si128(_mm_slli_si128(self.0 .0, 2), first) }))
    }

    #[inline(always)]
    fn with_pair(self) -> HalfRow {
        let first = unsafe { _mm_setr_epi16(NONE, NONE, NONE, NONE, 0, 0, 0, 0) };
        HalfRow(Words(unsafe { _mm_or_si128(_mm_slli_si128(self.0 .0, 8), first) }))
    }

    #[inline(always)]
    fn lacking(self, cost: Words) -> HalfRow {
        HalfRow(self.0.add(cost))
    }

    #[inline(always)]
    fn least<const SIZE: usize>(all: [HalfRow; SIZE]) -> HalfRow {
        HalfRow(least_of(all.map(|row| row.0)))
    }
}

impl Row {
    /// The lacks alone.
    #[inline(always)]
    pub fn lacks(&self) -> Row {
        Row { plain: self.plain.lacks(), paired: self.paired.lacks() }
    }

    /// The ranks of the entries that are chosen by all bits.
    #[inline(always)]
    pub fn marks(&self, plain: Words, paired: Words) -> u64 {
        let kept = self.plain.or(plain.not()).and(self.paired.or(paired.not()));
        (!kept.folded(Words::and) & RANKS) as u64
    }
}

/// The least sums of the lacks of two rows, by sets and pairs.
#[inline(always)]
pub fn joined(left: &Row, right: &Row) -> Row {
    let mut sums = Row::none();
    let mut moved = *right;
    macro_rules! take {
        ($sets:literal) => {
            let (plain, paired) = (left.plain.spread::<$sets>(), left.paired.spread::<$sets>());
            sums.plain = sums.plain.min(moved.plain.add(plain));
            sums.paired = sums.paired.min(moved.paired.add(plain)).min(moved.plain.add(paired));
            moved = moved.with_set();
        };
    }
    take!(0);
    take!(1);
    take!(2);
    take!(3);
    take!(4);
    let _ = moved;
    sums
}

/// What it adds to a word to use 0 to 4 tiles of a rank.
type Costs = [Words; 5];

#[inline(always)]
fn costs(have: u8, cap: u8, rank: usize) -> Costs {
    unsafe {
        let used = _mm_setr_epi16(0, 1, 2, 3, 4, 5, 6, 7);
        let lack = _mm_subs_epu16(used, _mm_set1_epi16(i16::from(have)));
        let mark = _mm_and_si128(_mm_cmpgt_epi16(lack, _mm_setzero_si128()), _mm_set1_epi16(1 << rank));
        let above = _mm_cmpgt_epi16(used, _mm_set1_epi16(i16::from(cap)));
        let cost = _mm_sub_epi16(_mm_slli_epi16(lack, 9), mark);
        let all = Words(_mm_or_si128(cost, _mm_and_si128(above, _mm_set1_epi16(NONE))));
        [all.spread::<0>(), all.spread::<1>(), all.spread::<2>(), all.spread::<3>(), all.spread::<4>()]
    }
}

/// Rows of one rank and all later ones. `open[one][two]`: runs begun one and two ranks before.
type Open<E> = [[E; 3]; 3];

/// With no run that begins here: nothing, a pair or a triplet beside so many tiles of open runs.
#[inline(always)]
fn without_run<const USED: usize, E: Entries>(later: E, costs: &Costs) -> E {
    let none = later.lacking(costs[USED]);
    if USED > 2 {
        return none;
    }
    let two = later.with_pair().lacking(costs[USED + 2]);
    if USED == 2 {
        return E::least([none, two]);
    }
    E::least([none, two, later.with_set().lacking(costs[USED + 3])])
}

/// The later choices by how many tiles the runs that begin here, a triplet and a pair take of this rank.
#[inline(always)]
fn added<E: Entries>(zero: E, one: E, two: E) -> [E; 5] {
    let one = one.with_set();
    let two = two.with_set().with_set();
    [
        zero,
        one,
        E::least([two, zero.with_pair()]),
        E::least([zero.with_set(), one.with_pair()]),
        E::least([one.with_set(), two.with_pair()]),
    ]
}

/// The row beside 5 - SIZE tiles of open runs.
#[inline(always)]
fn with_runs<const SIZE: usize, E: Entries>(added: &[E; 5], costs: &Costs) -> E {
    E::least(std::array::from_fn::<E, SIZE, _>(|more| added[more].lacking(costs[5 - SIZE + more])))
}

#[inline(always)]
fn last_rank<E: Entries>(costs: &Costs) -> [E; 3] {
    let later = E::nothing();
    [without_run::<0, E>(later, costs), without_run::<1, E>(later, costs), without_run::<2, E>(later, costs)]
}

#[inline(always)]
fn eighth_rank<E: Entries>(&[zero, one, two]: &[E; 3], costs: &Costs) -> Open<E> {
    [
        [without_run::<0, E>(zero, costs), without_run::<1, E>(zero, costs), without_run::<2, E>(zero, costs)],
        [without_run::<1, E>(one, costs), without_run::<2, E>(one, costs), without_run::<3, E>(one, costs)],
        [without_run::<2, E>(two, costs), without_run::<3, E>(two, costs), without_run::<4, E>(two, costs)],
    ]
}

/// For each number of runs begun one rank before, what this rank adds.
#[inline(always)]
fn added_by_begun<E: Entries>([none, one, two]: &Open<E>) -> [[E; 5]; 3] {
    [added(none[0], one[0], two[0]), added(none[1], one[1], two[1]), added(none[2], one[2], two[2])]
}

#[inline(always)]
fn middle_rank<E: Entries>(later: &Open<E>, costs: &Costs) -> Open<E> {
    let [zero, one, two] = added_by_begun(later);
    [
        [with_runs::<5, E>(&zero, costs), with_runs::<4, E>(&zero, costs), with_runs::<3, E>(&zero, costs)],
        [with_runs::<4, E>(&one, costs), with_runs::<3, E>(&one, costs), with_runs::<2, E>(&one, costs)],
        [with_runs::<3, E>(&two, costs), with_runs::<2, E>(&two, costs), with_runs::<1, E>(&two, costs)],
    ]
}

#[inline(always)]
fn second_rank<E: Entries>(later: &Open<E>, costs: &Costs) -> [E; 3] {
    let [zero, one, two] = added_by_begun(later);
    [with_runs::<5, E>(&zero, costs), with_runs::<4, E>(&one, costs), with_runs::<3, E>(&two, costs)]
}

#[inline(always)]
fn first_rank<E: Entries>(later: &[E; 3], costs: &Costs) -> E {
    with_runs::<5, E>(&added(later[0], later[1], later[2]), costs)
}

/// What was made of a suit with runs, rank by rank; a row with one tile less begins again at its rank.
#[derive(Clone, Copy)]
pub struct Ranks<E> {
    last: [E; 3],
    /// Rank 2 is first here, rank 7 last.
    open: [Open<E>; 6],
    second: [E; 3],
}

impl<E: Entries> Ranks<E> {
    pub fn new() -> Ranks<E> {
        let none = [E::none(); 3];
        Ranks { last: none, open: [[none; 3]; 6], second: none }
    }

    /// Makes the row of a suit, and keeps its ranks.
    pub fn row(&mut self, counts: &[u8; 9], caps: &[u8; 9]) -> E {
        let cost = |rank: usize| costs(counts[rank], caps[rank], rank);
        self.last = last_rank(&cost(8));
        self.open[5] = eighth_rank(&self.last, &cost(7));
        for rank in (2..7).rev() {
            self.open[rank - 2] = middle_rank(&self.open[rank - 1], &cost(rank));
        }
        self.second = second_rank(&self.open[0], &cost(1));
        first_rank(&self.second, &cost(0))
    }

    /// The row of the suit with other counts at this rank and before it.
    pub fn row_again(&self, counts: &[u8; 9], caps: &[u8; 9], from: usize) -> E {
        let cost = |rank: usize| costs(counts[rank], caps[rank], rank);
        if from == 0 {
            return first_rank(&self.second, &cost(0));
        }
        if from == 1 {
            return first_rank(&second_rank(&self.open[0], &cost(1)), &cost(0));
        }
        let mut open = match from {
            8 => eighth_rank(&last_rank(&cost(8)), &cost(7)),
            7 => eighth_rank(&self.last, &cost(7)),
            _ => middle_rank(&self.open[from - 1], &cost(from)),
        };
        for rank in (2..from.min(7)).rev() {
            open = middle_rank(&open, &cost(rank));
        }
        first_rank(&second_rank(&open, &cost(1)), &cost(0))
    }
}

/// Rows of suits: of a hand without melds from the tables, the others made anew, up to three sets, rank by rank.
pub struct Kept {
    tables: &'static Tables,
    made: [Ranks<HalfRow>; 3],
}

fn has_melds(caps: &[u8]) -> bool {
    caps.iter().any(|&cap| cap != 4)
}

impl Kept {
    pub fn new() -> Kept {
        Kept { tables: tables(), made: [Ranks::new(); 3] }
    }

    /// Of a suit that has melds up to three sets, and up to four of all others.
    pub fn row(&mut self, suit: usize, counts: &[u8; 9], caps: &[u8; 9]) -> Row {
        if has_melds(caps) { self.made[suit].row(counts, caps).whole() } else { self.tables.row(counts) }
    }

    /// The row of the suit with other counts at this rank.
    pub fn row_again(&self, suit: usize, counts: &[u8; 9], caps: &[u8; 9], rank: usize) -> Row {
        if has_melds(caps) { self.made[suit].row_again(counts, caps, rank).whole() } else { self.tables.row(counts) }
    }

    /// The row of the honours, with so many melds as sets that lack nothing.
    pub fn honour_row(&self, counts: &[u8; 7], caps: &[u8; 7], melds: usize) -> Row {
        if melds == 0 { self.tables.honours(counts) } else { honour_row(counts, caps, melds) }
    }
}

/// The rows of all patterns of a suit and of the honours with at most fourteen tiles, no melds beside them.
pub struct Tables {
    /// By rank, tiles of earlier ranks and count: what it adds to the place of a pattern.
    steps: [[[u32; 5]; 15]; 9],
    rows: Vec<Row>,
    honours: Vec<Row>,
}

const MOST: usize = 14;

impl Tables {
    fn new() -> Tables {
        // patterns[ranks][tiles]: how many ways the last so many ranks take at most so many tiles
        let mut patterns = [[1u32; MOST + 1]; 10];
        for ranks in 1..10 {
            for tiles in 0..=MOST {
                patterns[ranks][tiles] = (0..=tiles.min(4)).map(|count| patterns[ranks - 1][tiles - count]).sum();
            }
        }
        let mut steps = [[[0; 5]; 15]; 9];
        for rank in 0..9 {
            for before in 0..=MOST {
                for count in 1..5.min(MOST - before + 2).min(5) {
                    if before + count - 1 <= MOST {
                        steps[rank][before][count] = steps[rank][before][count - 1] + patterns[8 - rank][MOST + 1 - before - count];
                    }
                }
            }
        }
        let size = patterns[9][MOST] as usize;
        let mut all = Tables { steps, rows: vec![Row::nothing(); size], honours: vec![Row::nothing(); patterns[7][MOST] as usize] };
        let mut ranks = Ranks::new();
        let (mut counts, mut total) = ([0u8; 9], 0);
        all.fill(&mut ranks, &mut counts, &mut total, 0);
        all
    }

    fn fill(&mut self, ranks: &mut Ranks<Row>, counts: &mut [u8; 9], total: &mut usize, rank: usize) {
        if rank == 9 {
            let place = self.place(counts);
            self.rows[place] = ranks.row(counts, &[4; 9]);
            if counts[..2] == [0, 0] {
                let seven = *counts[2..].first_chunk().expect("seven ranks are left");
                self.honours[place] = honour_row(&seven, &[4; 7], 0);
            }
            return;
        }
        for count in 0..=4.min(MOST - *total) {
            counts[rank] = count as u8;
            *total += count;
            self.fill(ranks, counts, total, rank + 1);
            *total -= count;
        }
        counts[rank] = 0;
    }

    #[inline(always)]
    fn place(&self, counts: &[u8]) -> usize {
        let (mut place, mut before) = (0, 0);
        for (rank, &count) in counts.iter().enumerate() {
            place += self.steps[rank + 9 - counts.len()][before & 15][usize::from(count) % 5] as usize;
            before += usize::from(count);
        }
        place
    }

    #[inline(always)]
    fn row(&self, counts: &[u8; 9]) -> Row {
        self.rows[self.place(counts)]
    }

    #[inline(always)]
    fn honours(&self, counts: &[u8; 7]) -> Row {
        self.honours[self.place(counts)]
    }
}

/// The tables, made when they are first asked for.
pub fn tables() -> &'static Tables {
    static TABLES: std::sync::OnceLock<Tables> = std::sync::OnceLock::new();
    TABLES.get_or_init(Tables::new)
}

/// The row of the honours, with so many melds as sets that lack nothing.
fn honour_row(counts: &[u8; 7], caps: &[u8; 7], melds: usize) -> Row {
    let mut row = Row::nothing();
    for _ in 0..melds {
        row = row.with_set();
    }
    for rank in 0..7 {
        row = without_run::<0, Row>(row, &costs(counts[rank], caps[rank], rank));
    }
    row
}
