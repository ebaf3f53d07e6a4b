//! Readings of a won hand, fu, yaku, payment.
use crate::house::{House, Switch};
use crate::kinds::{at_least, Each, ORPHANS};
use crate::line::Win;
use crate::pen::Pen;
use crate::suit::Suit;
use crate::tiles::{Counts, Meld};

#[derive(Clone, Copy, Default, PartialEq, Eq, PartialOrd, Ord, Debug)]
pub struct Score {
    pub base: u32,
    pub is_yakuman: bool,
    pub han: u8,
    pub fu: u8,
    pub yaku: u64,
    pub dora: u8,
}

pub enum Answer {
    NoWin,
    NoYaku,
    Won(Score),
}

pub const WORDS: [&str; 42] = [
    "riichi", "double-riichi", "ippatsu", "fully-concealed", "pinfu", "pure-double-chow", "all-simples", "white-dragon",
    "green-dragon", "red-dragon", "seat-wind", "prevalent-wind", "after-a-kong", "robbing-the-kong", "last-tile",
    "mixed-triple-chow", "pure-straight", "outside-hand", "seven-pairs", "triple-pung", "three-kongs", "all-pungs",
    "three-concealed-pungs", "little-three-dragons", "all-terminals-and-honours", "half-flush", "terminals-in-all-sets",
    "twice-pure-double-chow", "full-flush", "thirteen-orphans", "nine-gates", "four-concealed-pungs", "big-three-dragons",
    "little-four-winds", "big-four-winds", "all-honours", "all-terminals", "all-green", "four-kongs",
    "blessing-of-heaven", "blessing-of-earth", "blessing-of-man",
];
const CONCEALED: [u8; 29] = [1, 2, 1, 1, 1, 1, 1, 1, 1, 1, 1, 1, 1, 1, 1, 2, 2, 2, 2, 2, 2, 2, 2, 2, 2, 3, 3, 3, 6];
const MELDED: [u8; 29] = [0, 0, 0, 0, 0, 0, 1, 1, 1, 1, 1, 1, 1, 1, 1, 1, 1, 1, 0, 2, 2, 2, 2, 2, 2, 2, 2, 0, 5];

/// Dragons, and each wind, as kinds.
const DRAGONS: u64 = 7 << 31;
const WINDS: u64 = 15 << 27;
const GREEN: u64 = 1 << 19 | 1 << 20 | 1 << 21 | 1 << 23 | 1 << 25 | 1 << 32;
/// Runs with a terminal, by their lowest kinds.
const END_RUNS: u64 = 0x41 | 0x41 << 9 | 0x41 << 18;

/// What is the same for every reading of a hand.
struct Hand<'a> {
    win: &'a Win,
    is_concealed: bool,
    has_honours: bool,
    /// Yaku of luck, and of tiles for seven pairs and standard readings.
    luck: u64,
    tiles: u64,
    /// Yakuman of all readings but the orphans, and of standard readings.
    great: u64,
    standard_great: u64,
    /// Melds: runs, triplets (kongs too), those that are concealed, and kongs.
    melds: Sets,
    kongs: u64,
    dora: u8,
}

/// Sets as kinds: runs by their lowest, in the first place those that are there, in the second those that are there
/// twice or oftener, and so on; triplets, and those that are concealed.
#[derive(Clone, Copy, Default)]
pub struct Sets {
    pub runs: [u64; 4],
    pub triplets: u64,
    pub concealed: u64,
}

impl Sets {
    pub fn add_run(&mut self, low: usize) {
        let mut more = 1 << low;
        for runs in &mut self.runs {
            let both = *runs & more;
            *runs |= more;
            more = both;
        }
    }

    fn with(&self, other: &Sets) -> Sets {
        let mut all = Sets { triplets: self.triplets | other.triplets, concealed: self.concealed | other.concealed, ..*self };
        for runs in other.runs {
            Each(runs).for_each(|low| all.add_run(low));
        }
        all
    }
}

fn melds_of(win: &Win) -> (Sets, u64) {
    let (mut sets, mut kongs) = (Sets::default(), 0);
    for meld in win.melds.iter() {
        match *meld {
            Meld::Chi(low) => sets.add_run(low as usize),
            Meld::Pon(kind) => sets.triplets |= 1 << kind,
            Meld::Kan(kind) => (sets.triplets, kongs) = (sets.triplets | 1 << kind, kongs | 1 << kind),
            Meld::Ankan(kind) => {
                sets.triplets |= 1 << kind;
                sets.concealed |= 1 << kind;
                kongs |= 1 << kind;
            }
        }
    }
    (sets, kongs)
}

fn luck_of(win: &Win, is_concealed: bool) -> u64 {
    let flags = win.flags;
    u64::from(win.riichi == 1)
        | u64::from(win.riichi == 2) << 1
        | u64::from(flags.ippatsu && win.house.has(Switch::Ippatsu)) << 2
        | u64::from(win.is_tsumo && is_concealed) << 3
        | u64::from(flags.rinshan) << 12
        | u64::from(flags.chankan) << 13
        | u64::from(flags.last) << 14
}

impl Hand<'_> {
    fn of<'a>(win: &'a Win, all: &Counts) -> Hand<'a> {
        let held = at_least(all, 1);
        let is_concealed = win.melds.concealed();
        let (melds, kongs) = melds_of(win);
        let suits = [0, 9, 18].map(|from| u32::from(held >> from & 511 != 0)).iter().sum::<u32>();
        let has_honours = held >> 27 != 0;
        let is_orphans = held & !ORPHANS == 0;
        let is_one = suits == 1 && !has_honours;
        let first = win.flags.first;
        let is_dealer = win.seat == 27;
        let blessings = u64::from(first && is_dealer) << 39
            | u64::from(first && !is_dealer && win.is_tsumo) << 40
            | u64::from(first && !win.is_tsumo) << 41;
        let may_be_simple = is_concealed || win.house.has(Switch::OpenSimples);
        Hand {
            win,
            is_concealed,
            has_honours,
            luck: luck_of(win, is_concealed),
            tiles: u64::from(held & ORPHANS == 0 && may_be_simple) << 6
                | u64::from(is_orphans) << 24
                | u64::from(suits == 1 && has_honours) << 25
                | u64::from(is_one) << 28,
            great: u64::from(suits == 0) << 35 | blessings,
            standard_great: u64::from(is_one && win.melds.count == 0 && is_gates(held, at_least(all, 3))) << 30
                | u64::from(is_orphans && !has_honours) << 36
                | u64::from(held & !GREEN == 0) << 37,
            melds,
            kongs,
            dora: win.reds + win.dora[..win.dora_count].iter().map(|&kind| all[kind as usize]).sum::<u8>(),
        }
    }
}

/// In the suit of the tiles there are three of each end and one of each other rank.
fn is_gates(held: u64, three: u64) -> bool {
    let suit = held.trailing_zeros() / 9 * 9;
    held >> suit & 511 == 511 && three >> suit & 0x101 == 0x101
}

fn bits_of_runs(runs: &[u64; 4], concealed: bool) -> u64 {
    let pairs = runs[1].count_ones() + runs[3].count_ones();
    let any = runs[0];
    let mixed = any & any >> 9 & any >> 18 & 511 != 0;
    let straight = any & any >> 3 & any >> 6 & (1 | 1 << 9 | 1 << 18) != 0;
    u64::from(concealed && pairs == 1) << 5 | u64::from(concealed && pairs == 2) << 27 | u64::from(mixed) << 15 | u64::from(straight) << 16
}

fn bits_of_triplets(hand: &Hand, sets: &Sets, pair: u8) -> (u64, u64) {
    let held = sets.triplets;
    if held == 0 {
        return (0, 0);
    }
    let (win, pair) = (hand.win, 1 << pair);
    let concealed = sets.concealed.count_ones();
    let kongs = hand.kongs.count_ones();
    let dragons = (held & DRAGONS).count_ones();
    let winds = (held & WINDS).count_ones();
    let ordinary = (held >> 31 & 7) << 7
        | (held >> win.seat & 1) << 10
        | (held >> win.round & 1) << 11
        | u64::from(held & held >> 9 & held >> 18 & 511 != 0) << 19
        | u64::from(kongs >= 3) << 20
        | u64::from(held.count_ones() == 4) << 21
        | u64::from(concealed >= 3) << 22
        | u64::from(dragons == 2 && pair & DRAGONS != 0) << 23;
    let great = u64::from(concealed == 4) << 31
        | u64::from(dragons == 3) << 32
        | u64::from(winds == 3 && pair & WINDS != 0) << 33
        | u64::from(winds == 4) << 34
        | u64::from(kongs == 4) << 38;
    (ordinary, great)
}

fn bits_of_ends(hand: &Hand, sets: &Sets, pair: u8) -> u64 {
    let runs = sets.runs[0];
    if runs == 0 || runs & !END_RUNS != 0 || (sets.triplets | 1 << pair) & !ORPHANS != 0 {
        return 0;
    }
    if hand.has_honours { 1 << 17 } else { 1 << 26 }
}

/// Two for each triplet, twice that for terminals and honours, and for concealed ones; four times for kongs.
fn fu_of_triplets(hand: &Hand, sets: &Sets) -> u32 {
    let mut fu = 0;
    for (kinds, times) in [(sets.triplets & !hand.kongs, 2), (sets.triplets & hand.kongs, 8)] {
        if kinds != 0 {
            let both = kinds & sets.concealed;
            let ends = kinds & ORPHANS;
            let each = kinds.count_ones() + both.count_ones() + ends.count_ones() + (both & ends).count_ones();
            fu += times * each;
        }
    }
    fu
}

fn fu_of_pair(win: &Win, pair: u8) -> u32 {
    let winds = u32::from(pair == win.seat) + u32::from(pair == win.round);
    let most = if win.house.has(Switch::DoubleWindPair) { 2 } else { 1 };
    2 * (u32::from(pair >= 31) + winds.min(most))
}

pub fn base_points(house: House, han: u8, fu: u8) -> u32 {
    match han {
        0..=4 if house.has(Switch::Raise) && (han == 4 && fu == 30 || han == 3 && fu == 60) => 2000,
        0..=4 => (u32::from(fu) << (han + 2)).min(2000),
        5 => 2000,
        6 | 7 => 3000,
        8..=10 => 4000,
        11 | 12 => 6000,
        _ if !house.has(Switch::CountedYakuman) => 6000,
        _ => 8000,
    }
}

/// The yakuman that are in a rare form: thirteen orphans on thirteen waits, nine gates on nine, four concealed pungs completed
/// in the pair, and big four winds in any.
fn rare_of(win: &Win, pair: Option<u8>) -> u64 {
    let held = at_least(&win.concealed, 1);
    let is_pure = is_gates(held, at_least(&win.concealed, 3));
    u64::from(held == ORPHANS) << 29 | u64::from(is_pure) << 30 | u64::from(pair == Some(win.winning)) << 31 | 1 << 34
}

/// How many limits the yakuman of a reading pay.
fn limits_of(win: &Win, yakuman: u64, pair: Option<u8>) -> u32 {
    let double = if win.house.has(Switch::DoubleYakuman) { yakuman & rare_of(win, pair) } else { 0 };
    if win.house.has(Switch::AddYakuman) {
        yakuman.count_ones() + double.count_ones()
    } else {
        1 + u32::from(double != 0)
    }
}

fn scored(hand: &Hand, ordinary: u64, yakuman: u64, pair: Option<u8>, fu: u32) -> Option<Score> {
    if yakuman != 0 {
        let base = 8000 * limits_of(hand.win, yakuman, pair);
        return Some(Score { base, is_yakuman: true, yaku: yakuman, ..Score::default() });
    }
    if ordinary == 0 {
        return None;
    }
    let table = if hand.is_concealed { &CONCEALED } else { &MELDED };
    let mut han = hand.dora;
    let mut rest = ordinary;
    while rest != 0 {
        han += table[rest.trailing_zeros() as usize];
        rest &= rest - 1;
    }
    let fu = fu as u8;
    Some(Score { base: base_points(hand.win.house, han, fu), is_yakuman: false, han, fu, yaku: ordinary, dora: hand.dora })
}

/// What the winning tile completes.
#[derive(Clone, Copy, PartialEq, Eq)]
enum Done {
    TwoSided,
    /// A run within or at an end, or the pair.
    One,
    Triplet,
}

fn score_standard(hand: &Hand, mut sets: Sets, pair: u8, done: Done) -> Option<Score> {
    let win = hand.win;
    if done == Done::Triplet && !win.is_tsumo {
        sets.concealed &= !(1 << win.winning);
    }
    let pair_fu = fu_of_pair(win, pair);
    let pinfu = hand.is_concealed && pair_fu == 0 && done == Done::TwoSided && sets.triplets == 0;
    let mut fu = 20 + pair_fu + 2 * u32::from(done == Done::One) + fu_of_triplets(hand, &sets);
    let draw_fu = !pinfu && (!win.flags.rinshan || win.house.has(Switch::KongDrawFu));
    fu += if win.is_tsumo { if draw_fu { 2 } else { 0 } } else if hand.is_concealed { 10 } else { 0 };
    if !win.is_tsumo && !hand.is_concealed && fu == 20 && win.house.has(Switch::OpenPinfuFu) {
        fu = 30;
    }
    let (triplets, great) = bits_of_triplets(hand, &sets, pair);
    let ordinary = hand.luck
        | hand.tiles
        | u64::from(pinfu) << 4
        | bits_of_runs(&sets.runs, hand.is_concealed)
        | bits_of_ends(hand, &sets, pair)
        | triplets;
    scored(hand, ordinary, hand.great | great | hand.standard_great, Some(pair), fu.div_ceil(10) * 10)
}

/// The best of all readings so far.
struct Search<'a> {
    hand: Hand<'a>,
    best: Option<Score>,
    is_win: bool,
}

impl Search<'_> {
    /// Scores a reading for all that the winning tile may complete in it.
    fn tell(&mut self, concealed: &Sets, pair: u8) {
        self.is_win = true;
        let on = self.hand.win.winning;
        let sets = concealed.with(&self.hand.melds);
        let mut score = |done| self.best = self.best.max(score_standard(&self.hand, sets, pair, done));
        if concealed.triplets >> on & 1 == 1 {
            score(Done::Triplet);
        }
        let mut is_one = pair == on;
        if on < 27 {
            let (rank, runs) = (on % 9, concealed.runs[0]);
            let has_run = |back: u8| rank >= back && runs >> (on - back) & 1 == 1;
            if has_run(0) && rank != 6 || has_run(2) && rank != 2 {
                score(Done::TwoSided);
            }
            is_one |= has_run(1) || has_run(0) && rank == 6 || has_run(2) && rank == 2;
        }
        if is_one {
            score(Done::One);
        }
    }

    /// Takes sets from the lowest rank of a suit on, and then of the suits after it. Only where three neighbours all
    /// have three tiles there is more than one way.
    fn take(&mut self, suits: &[Suit; 4], mut suit: usize, mut tiles: u64, mut sets: Sets, pair: u8) {
        loop {
            while tiles == 0 {
                if suit == 3 {
                    return self.tell(&sets, pair);
                }
                suit += 1;
                tiles = suits[suit].tiles;
            }
            let at = tiles.trailing_zeros() & !3;
            let (held, kind) = (tiles >> at & 7, suit * 9 + at as usize / 4);
            let both = (tiles >> (at + 4) & 7).min(tiles >> (at + 8) & 7);
            if held >= 3 {
                if both >= 3 && suit < 3 {
                    let mut runs = sets;
                    (0..3).for_each(|_| runs.add_run(kind));
                    self.take(suits, suit, tiles - (0x333 << at), runs, pair);
                }
                sets.triplets |= 1 << kind;
                sets.concealed |= 1 << kind;
                tiles -= 3 << at;
            } else if both >= held && suit < 3 {
                (0..held).for_each(|_| sets.add_run(kind));
                tiles -= (0x111 * held) << at;
            } else {
                return;
            }
        }
    }

    fn standard(&mut self, counts: &Counts) {
        let mut suits = [0, 1, 2, 3].map(|suit| Suit::of(counts, suit));
        let sums = suits.map(|suit| suit.sums());
        let mut with_pair = (0..4).filter(|&suit| sums[suit].0 == 2);
        let (Some(suit), None) = (with_pair.next(), with_pair.next()) else {
            return;
        };
        if (0..4).any(|other| other != suit && sums[other].0 != 0) {
            return;
        }
        let whole = suits[suit];
        for place in Each(whole.places(2 * sums[suit].1) & whole.twos()) {
            suits[suit] = whole.without(2, place);
            if suits[suit].is_sets() {
                self.take(&suits, 0, suits[0].tiles, Sets::default(), (suit * 9 + place / 4) as u8);
            }
        }
    }

    fn special(&mut self, one: u64, two: u64, three: u64) {
        let hand = &self.hand;
        if (two & !three).count_ones() == 7 {
            let score = scored(hand, hand.luck | hand.tiles | 1 << 18, hand.great, None, 25);
            self.is_win = true;
            self.best = self.best.max(score);
        }
        if one == ORPHANS {
            let score = scored(hand, 0, hand.great & (7 << 39) | 1 << 29, None, 0);
            self.is_win = true;
            self.best = self.best.max(score);
        }
    }
}

pub fn best(win: &Win) -> Answer {
    let mut counts = win.concealed;
    counts[win.winning as usize] += 1;
    let mut all = counts;
    win.melds.add_to(&mut all);
    let mut search = Search { hand: Hand::of(win, &all), best: None, is_win: false };
    search.standard(&counts);
    if win.melds.count == 0 {
        search.special(at_least(&counts, 1), at_least(&counts, 2), at_least(&counts, 3));
    }
    match search.best {
        Some(score) => Answer::Won(score),
        None if search.is_win => Answer::NoYaku,
        None => Answer::NoWin,
    }
}

fn up(points: u32) -> u32 {
    points.div_ceil(100) * 100
}

pub fn write_answer(out: &mut Vec<u8>, win: &Win, answer: &Answer) {
    let mut pen = Pen::new(out, 1024);
    let score = match answer {
        Answer::NoWin => return pen.text(b"no win"),
        Answer::NoYaku => return pen.text(b"no yaku"),
        Answer::Won(score) => score,
    };
    if score.is_yakuman {
        pen.text(b"won yakuman ");
    } else {
        pen.text(b"won ");
        pen.number(score.han.into());
        pen.text(b" han ");
        pen.number(score.fu.into());
        pen.text(b" fu ");
    }
    let gain = write_payment(&mut pen, win, score.base) + 1000 * u32::from(win.sticks);
    pen.text(b" gain ");
    pen.number(gain);
    for yaku in Each(score.yaku) {
        pen.byte(b' ');
        pen.text(WORDS[yaku].as_bytes());
    }
    if score.dora > 0 {
        pen.text(b" dora ");
        pen.number(score.dora.into());
    }
}

fn write_payment(pen: &mut Pen, win: &Win, base: u32) -> u32 {
    let counters = u32::from(win.counters);
    let is_dealer = win.seat == 27;
    if !win.is_tsumo {
        let points = up(base * if is_dealer { 6 } else { 4 }) + 300 * counters;
        pen.number(points);
        return points;
    }
    let dealer = up(base * 2) + 100 * counters;
    if is_dealer {
        pen.number(dealer);
        pen.text(b" all");
        return 3 * dealer;
    }
    let other = up(base) + 100 * counters;
    pen.number(other);
    pen.byte(b'/');
    pen.number(dealer);
    2 * other + dealer
}
