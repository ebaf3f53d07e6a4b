//! How many tiles a hand lacks of the nearest winning one, by every choice of sets and a pair.
use crate::kinds::ORPHANS;
use crate::tiles::{Counts, Melds};

/// Lacks more than any hand.
const NONE: u8 = 64;

/// The least lack of a suit by how many sets it gives, and whether it gives the pair.
type Lacks = [[u8; 2]; 5];

/// One suit: what is held of each rank, and how many of each a winning hand may have there.
struct Suit<'a> {
    held: &'a [u8],
    caps: &'a [u8],
    has_runs: bool,
}

/// What has been chosen of the ranks before.
#[derive(Clone, Copy)]
struct Chosen {
    rank: usize,
    /// The runs that began one rank before, and two ranks before.
    begun: [u8; 2],
    sets: usize,
    paired: bool,
    lack: u8,
}

impl Suit<'_> {
    /// Every choice from a rank on.
    fn choose(&self, chosen: Chosen, best: &mut Lacks) {
        let Chosen { rank, begun, sets, paired, lack } = chosen;
        if rank == self.held.len() {
            if begun == [0, 0] {
                let least = &mut best[sets][usize::from(paired)];
                *least = lack.min(*least);
            }
            return;
        }
        for runs in 0..=if self.has_runs { 4 - sets as u8 } else { 0 } {
            for triplets in 0..=u8::from(sets + (runs as usize) < 4) {
                for pair in 0..=u8::from(!paired) {
                    let used = begun[0] + begun[1] + runs + 3 * triplets + 2 * pair;
                    if used <= self.caps[rank] {
                        let next = Chosen {
                            rank: rank + 1,
                            begun: [runs, begun[0]],
                            sets: sets + (runs + triplets) as usize,
                            paired: paired || pair > 0,
                            lack: lack + used.saturating_sub(self.held[rank]),
                        };
                        self.choose(next, best);
                    }
                }
            }
        }
    }

    fn lacks(&self) -> Lacks {
        let mut best = [[NONE; 2]; 5];
        self.choose(Chosen { rank: 0, begun: [0, 0], sets: 0, paired: false, lack: 0 }, &mut best);
        best
    }
}

/// The least sums of two suits.
fn joined(one: &Lacks, other: &Lacks) -> Lacks {
    let mut best = [[NONE; 2]; 5];
    for sets in 0..5 {
        for more in 0..5 - sets {
            for (pair, other_pair) in [(0, 0), (0, 1), (1, 0)] {
                let sum = one[sets][pair] + other[more][other_pair];
                let least = &mut best[sets + more][pair + other_pair];
                *least = sum.min(*least).min(NONE);
            }
        }
    }
    best
}

fn pairs_lack(hand: &Counts) -> u8 {
    let twos = hand.iter().filter(|&&held| held >= 2).count().min(7) as u8;
    let ones = hand.iter().filter(|&&held| held == 1).count() as u8;
    14 - 2 * twos - ones.min(7 - twos)
}

fn orphans_lack(hand: &Counts) -> u8 {
    let orphans = (0..34).filter(|kind| ORPHANS >> kind & 1 == 1);
    let held = orphans.clone().filter(|&kind| hand[kind] > 0).count() as u8;
    let two = orphans.clone().any(|kind| hand[kind] >= 2);
    14 - held - u8::from(two)
}

/// The lacks of the suits, kept while a hand is looked at: most hands that are asked differ in one suit.
#[derive(Default)]
pub struct Known {
    suits: std::collections::HashMap<(usize, [u8; 9], [u8; 9]), Lacks>,
}

impl Known {
    fn lacks(&mut self, suit: usize, hand: &Counts, caps: &Counts) -> Lacks {
        let size = if suit == 3 { 7 } else { 9 };
        let part = |counts: &Counts| {
            let mut nine = [0; 9];
            nine[..size].copy_from_slice(&counts[9 * suit..9 * suit + size]);
            nine
        };
        let (held, caps) = (part(hand), part(caps));
        *self.suits.entry((suit / 3, held, caps)).or_insert_with(|| {
            Suit { held: &held[..size], caps: &caps[..size], has_runs: suit < 3 }.lacks()
        })
    }

    /// The least lack of any winning hand beside the melds.
    pub fn distance(&mut self, hand: &Counts, melds: &Melds) -> u8 {
        let mut melded = [0; 34];
        melds.add_to(&mut melded);
        let caps = melded.map(|melded| 4 - melded);
        let suits: [Lacks; 4] = std::array::from_fn(|suit| self.lacks(suit, hand, &caps));
        let all = joined(&joined(&suits[0], &suits[1]), &joined(&suits[2], &suits[3]));
        let standard = all[4 - melds.count][1];
        if melds.count > 0 {
            return standard;
        }
        standard.min(pairs_lack(hand)).min(orphans_lack(hand))
    }
}
