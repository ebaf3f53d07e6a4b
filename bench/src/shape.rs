//! Shanten, accepted tiles, discards.
use crate::kinds::{at_least, Each, ALL, ORPHANS};
use crate::pen::{Pen, NAMES};
use crate::rows::{joined, Kept, Row, Words};
use crate::tiles::{Counts, Melds};

/// Lacks more than any hand.
const NONE: i16 = 64;

struct Hand {
    counts: Counts,
    caps: Counts,
    melds: usize,
}

impl Hand {
    fn nine(counts: &Counts, suit: usize) -> &[u8; 9] {
        counts[suit * 9..].first_chunk().expect("a suit has nine kinds")
    }

    fn row(&self, kept: &mut Kept, suit: usize) -> Row {
        kept.row(suit, Hand::nine(&self.counts, suit), Hand::nine(&self.caps, suit))
    }

    fn honours(&self, kept: &Kept) -> Row {
        let seven = |counts: &Counts| *counts[27..].first_chunk().expect("there are seven honours");
        kept.honour_row(&seven(&self.counts), &seven(&self.caps), self.melds)
    }

    /// The row of the suit of a kind that has other counts than before.
    fn row_again(&self, kept: &Kept, kind: usize) -> Row {
        match kind / 9 {
            3 => self.honours(kept),
            suit => kept.row_again(suit, Hand::nine(&self.counts, suit), Hand::nine(&self.caps, suit), kind % 9),
        }
    }
}

/// The lacks of the other three suits, at each entry of one suit.
fn rest_of(others: Row) -> Row {
    Row { plain: others.paired.rest_of_four(), paired: others.plain.rest_of_four() }
}

/// The sums of a suit's entries with the rest.
fn sums(lacks: &Row, rest: &Row) -> Row {
    Row { plain: lacks.plain.add(rest.plain), paired: lacks.paired.add(rest.paired) }
}

/// All bits at each entry that has this sum.
fn chosen(sums: &Row, lack: i16) -> Row {
    let lack = Words::splat(lack);
    Row { plain: sums.plain.same(lack), paired: sums.paired.same(lack) }
}

/// The ranks of a suit that least choices of the whole hand lack.
fn marks(row: &Row, others: Row, lack: i16) -> u64 {
    let chosen = chosen(&sums(&row.lacks(), &rest_of(others)), lack);
    row.marks(chosen.plain, chosen.paired)
}

/// The least lack of seven pairs and the kinds that are lacked.
fn pairs_of(one: u64, two: u64) -> (i16, u64) {
    let twos = two.count_ones().min(7) as i16;
    let ones = (one & !two).count_ones() as i16;
    let lack = 14 - 2 * twos - ones.min(7 - twos);
    if twos == 7 {
        (lack, 0)
    } else if twos + ones >= 7 {
        (lack, one & !two)
    } else {
        (lack, ALL & !two)
    }
}

/// The least lack of thirteen orphans and the kinds that are lacked.
fn orphans_of(one: u64, two: u64) -> (i16, u64) {
    let (held, has_two) = (one & ORPHANS, two & ORPHANS != 0);
    let lack = 14 - held.count_ones() as i16 - i16::from(has_two);
    (lack, if has_two { ORPHANS & !held } else { ORPHANS })
}

/// The two forms that have no melds, by the kinds held once or more and twice or more.
fn special(melds: usize, one: u64, two: u64) -> [(i16, u64); 2] {
    if melds == 0 {
        [pairs_of(one, two), orphans_of(one, two)]
    } else {
        [(NONE, 0); 2]
    }
}

/// The rows of a hand and what joins them.
struct Joins {
    rows: [Row; 4],
    lacks: [Row; 4],
    low: Row,
    high: Row,
    least: i16,
}

impl Joins {
    fn new(hand: &Hand, kept: &mut Kept) -> Joins {
        Joins::of([hand.row(kept, 0), hand.row(kept, 1), hand.row(kept, 2), hand.honours(kept)])
    }

    fn of(rows: [Row; 4]) -> Joins {
        let lacks = [rows[0].lacks(), rows[1].lacks(), rows[2].lacks(), rows[3].lacks()];
        let (low, high) = (joined(&lacks[0], &lacks[1]), joined(&lacks[2], &lacks[3]));
        let all = sums(&low, &rest_of(high));
        Joins { rows, lacks, low, high, least: all.plain.min(all.paired).least() }
    }

    /// The join of all suits but this one.
    fn others(&self, suit: usize) -> Row {
        match suit {
            0 | 1 => joined(&self.lacks[1 - suit], &self.high),
            _ => joined(&self.lacks[5 - suit], &self.low),
        }
    }

    /// The kinds that some least choice lacks.
    fn marks(&self) -> u64 {
        (0..4).fold(0, |all, suit| all | marks(&self.rows[suit], self.others(suit), self.least) << (9 * suit))
    }

    /// The kinds of other suits that least choices lack, where one suit has these lacks.
    fn other_marks(&self, suit: usize, lacks: &Row, lack: i16) -> u64 {
        let [one, two, three] = [[1, 2, 3], [0, 2, 3], [0, 1, 3], [0, 1, 2]][suit];
        let with_one = joined(lacks, &self.lacks[one]);
        let rest = match suit {
            0 | 1 => joined(lacks, &self.high),
            _ => joined(&joined(lacks, &self.lacks[two]), &self.lacks[three]),
        };
        marks(&self.rows[one], rest, lack) << (9 * one)
            | marks(&self.rows[two], joined(&with_one, &self.lacks[three]), lack) << (9 * two)
            | marks(&self.rows[three], joined(&with_one, &self.lacks[two]), lack) << (9 * three)
    }
}

/// How many of each kind are live, and how each is written.
struct Live {
    at_least: [u64; 4],
    /// A space, the kind, a colon, how many.
    words: [u64; 34],
}

impl Live {
    fn new(counts: &Counts) -> Live {
        let words = std::array::from_fn(|kind| 0x30_3a_00_00_20 | NAMES[kind] << 8 | u64::from(counts[kind]) << 32);
        Live { at_least: [1, 2, 3, 4].map(|number| at_least(counts, number)), words }
    }

    fn sum(&self, marks: u64) -> u32 {
        self.at_least.iter().map(|kinds| (kinds & marks).count_ones()).sum()
    }

    /// Writes ` accepts`, the live kinds, and how many are live in all.
    fn write(&self, pen: &mut Pen, marks: u64, sum: u32) {
        pen.word(u64::from_le_bytes(*b" accepts"), 8);
        for kind in Each(marks & self.at_least[0]) {
            pen.word(self.words[kind], 5);
        }
        if sum == 0 {
            pen.word(u64::from_le_bytes(*b" -      "), 2);
        }
        pen.word(u64::from_le_bytes(*b" live   "), 6);
        pen.number(sum);
    }
}

/// A discard that keeps the least lack.
#[derive(Clone, Copy)]
struct Discard {
    sum: u32,
    kind: usize,
    marks: u64,
}

/// Finds discards; remembers what the entries of a suit that reach the least make of the other suits.
struct Search<'a> {
    joins: &'a Joins,
    rests: [Row; 4],
    /// The special forms of all fourteen tiles.
    special: [(i16, u64); 2],
    wanted: i16,
    known: [(u64, u64); 14],
    known_count: usize,
}

impl Search<'_> {
    /// The kinds that least choices lack after a discard of this kind, by sets and a pair; none where none is left.
    fn standard(&mut self, hand: &Hand, kept: &Kept, kind: usize) -> Option<u64> {
        let suit = kind / 9;
        let row = hand.row_again(kept, kind);
        let lacks = row.lacks();
        let chosen = chosen(&sums(&lacks, &self.rests[suit]), self.wanted);
        let key = u64::from(chosen.plain.bits()) << 16 | u64::from(chosen.paired.bits());
        if key == 0 {
            return None;
        }
        let key = key | (suit as u64) << 32;
        let own = row.marks(chosen.plain, chosen.paired) << (9 * suit);
        if let Some((_, others)) = self.known[..self.known_count].iter().find(|known| known.0 == key) {
            return Some(own | others);
        }
        let left = Row { plain: lacks.plain.only(chosen.plain), paired: lacks.paired.only(chosen.paired) };
        let others = self.joins.other_marks(suit, &left, self.wanted);
        self.known[self.known_count] = (key, others);
        self.known_count += 1;
        Some(own | others)
    }

    /// The kinds that are accepted after a discard of this kind; none where it does not keep the least lack.
    fn marks_after(&mut self, hand: &mut Hand, kept: &Kept, kind: usize) -> Option<u64> {
        hand.counts[kind] -= 1;
        let standard = if self.joins.least <= self.wanted { self.standard(hand, kept, kind) } else { None };
        let mut found = standard;
        if self.special.iter().any(|form| form.0 <= self.wanted) {
            let (one, two) = (at_least(&hand.counts, 1), at_least(&hand.counts, 2));
            for (lack, marks) in special(hand.melds, one, two) {
                if lack == self.wanted {
                    found = Some(found.unwrap_or(0) | marks);
                }
            }
        }
        hand.counts[kind] += 1;
        found
    }
}

fn write_shanten(pen: &mut Pen, lack: i16) {
    pen.word(u64::from_le_bytes(*b"shanten "), 8);
    match lack {
        0 => pen.word(u64::from_le_bytes(*b"-1      "), 2),
        _ => pen.number(lack as u32 - 1),
    }
}

fn write_discards(pen: &mut Pen, hand: &mut Hand, kept: &Kept, mut search: Search, live: &Live) {
    let mut found = [Discard { sum: 0, kind: 0, marks: 0 }; 14];
    let mut count = 0;
    for kind in Each(at_least(&hand.counts, 1)) {
        if let Some(marks) = search.marks_after(hand, kept, kind) {
            found[count] = Discard { sum: live.sum(marks), kind, marks };
            count += 1;
        }
    }
    let found = &mut found[..count];
    found.sort_by_key(|discard| (std::cmp::Reverse(discard.sum), discard.kind));
    for discard in found.iter() {
        pen.word(u64::from_le_bytes(*b" discard"), 8);
        pen.word(NAMES[discard.kind] << 8 | 0x20, 3);
        live.write(pen, discard.marks, discard.sum);
    }
}

pub fn write_shape(out: &mut Vec<u8>, kept: &mut Kept, tiles: &Counts, melds: &Melds, seen: &Counts) {
    let mut caps = [0u8; 34];
    melds.add_to(&mut caps);
    let live = Live::new(&std::array::from_fn(|kind| 4 - caps[kind] - tiles[kind] - seen[kind]));
    caps.iter_mut().for_each(|cap| *cap = 4 - *cap);
    let mut hand = Hand { counts: *tiles, caps, melds: melds.count };
    let joins = Joins::new(&hand, kept);
    let special = special(melds.count, at_least(tiles, 1), at_least(tiles, 2));
    let lack = joins.least.min(special[0].0).min(special[1].0);
    let mut pen = Pen::new(out, 14 * 256);
    write_shanten(&mut pen, lack);
    if tiles.iter().sum::<u8>() % 3 == 2 {
        let rests = [0, 1, 2, 3].map(|suit| rest_of(joins.others(suit)));
        // a complete hand lacks one tile after any discard
        let search = Search { joins: &joins, rests, special, wanted: lack.max(1), known: [(0, 0); 14], known_count: 0 };
        return write_discards(&mut pen, &mut hand, kept, search, &live);
    }
    let standard = if joins.least == lack { joins.marks() } else { 0 };
    let marks = special.iter().fold(standard, |all, form| if form.0 == lack { all | form.1 } else { all });
    live.write(&mut pen, marks, live.sum(marks));
}
