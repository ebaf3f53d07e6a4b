//! Tiles and their notation.
use crate::kinds::{at_least, Each};

pub type Counts = [u8; 34];

/// What is wrong with a text of tiles, and where.
#[derive(Clone, Copy, Debug, PartialEq, Eq)]
pub struct Fault {
    pub code: u8,
    pub place: usize,
}

/// The tiles that a text spells.
#[derive(Clone, Copy)]
pub struct Tiles {
    pub counts: Counts,
    pub total: usize,
    /// How many zeros there are.
    pub reds: u8,
}

impl Tiles {
    pub fn none() -> Tiles {
        Tiles { counts: [0; 34], total: 0, reds: 0 }
    }
}

/// No kind: where wrong digits are counted.
const WRONG: u8 = 34;

/// The kind of each digit, suit by suit.
const KINDS: [u8; 40] = kinds();

const fn kinds() -> [u8; 40] {
    let mut kinds = [WRONG; 40];
    let mut at = 0;
    while at < 40 {
        let (suit, digit) = (at as u8 / 10, at as u8 % 10);
        kinds[at] = match (suit, digit) {
            (3, 0 | 8 | 9) => WRONG,
            (_, 0) => suit * 9 + 4,
            _ => suit * 9 + digit - 1,
        };
        at += 1;
    }
    kinds
}

fn suit_of(letter: u8) -> Option<usize> {
    match letter {
        b'm' => Some(0),
        b'p' => Some(1),
        b's' => Some(2),
        b'z' => Some(3),
        _ => None,
    }
}

/// The tiles of a text without fault, from the last to the first.
fn read_backward(text: &[u8]) -> Option<Tiles> {
    let (&last, before) = text.split_last()?;
    if text.len() > 127 || !text[0].is_ascii_digit() {
        return None;
    }
    let (mut counts, mut letters, mut zeros) = ([0u8; 35], 1, 0);
    let mut suit = suit_of(last)?;
    let mut was_letter = true;
    for &byte in before.iter().rev() {
        let digit = byte.wrapping_sub(b'0');
        if digit > 9 {
            suit = suit_of(byte).filter(|_| !was_letter)?;
            was_letter = true;
            letters += 1;
            continue;
        }
        was_letter = false;
        counts[KINDS[suit * 10 + digit as usize] as usize] += 1;
        zeros += u8::from(digit == 0);
    }
    let (kinds, wrong) = counts.split_first_chunk()?;
    if wrong[0] > 0 || at_least(kinds, 5) != 0 {
        return None;
    }
    Some(Tiles { counts: *kinds, total: text.len() - letters, reds: zeros })
}

/// The tiles that a text spells, or its first fault.
pub fn read_tiles(text: &[u8]) -> Result<Tiles, Fault> {
    match read_backward(text) {
        Some(tiles) => Ok(tiles),
        None => read_forward(text),
    }
}

/// The same of any text, from the first byte on.
#[cold]
fn read_forward(text: &[u8]) -> Result<Tiles, Fault> {
    let fault = |code, place| Err(Fault { code, place });
    if text.is_empty() {
        return fault(1, 0);
    }
    let (mut tiles, mut start) = (Tiles::none(), 0);
    for (place, &byte) in text.iter().enumerate() {
        if byte.is_ascii_digit() {
            continue;
        }
        let Some(suit) = suit_of(byte) else {
            return fault(2, place);
        };
        if start == place {
            return fault(4, place);
        }
        for at in start..place {
            let digit = text[at] - b'0';
            let kind = KINDS[suit * 10 + digit as usize];
            if kind == WRONG {
                return fault(5, at);
            }
            if tiles.counts[kind as usize] == 4 {
                return fault(6, at);
            }
            tiles.counts[kind as usize] += 1;
            tiles.reds += u8::from(digit == 0);
            tiles.total += 1;
        }
        start = place + 1;
    }
    if start < text.len() {
        return fault(3, text.len());
    }
    Ok(tiles)
}

/// Writes tiles: suits in the order m, p, s, z.
pub fn write_counts(out: &mut Vec<u8>, counts: &Counts) {
    for (suit, letter) in [(0, b'm'), (9, b'p'), (18, b's'), (27, b'z')] {
        let before = out.len();
        for kind in suit..(suit + 9).min(34) {
            for _ in 0..counts[kind] {
                out.push(b'1' + (kind - suit) as u8);
            }
        }
        if out.len() > before {
            out.push(letter);
        }
    }
}

/// Writes one kind.
pub fn write_kind(out: &mut Vec<u8>, kind: usize) {
    out.push(b'1' + (kind % 9) as u8);
    out.push(b"mpsz"[kind / 9]);
}

/// Writes a number.
pub fn write_number(out: &mut Vec<u8>, number: u32) {
    let (mut digits, mut at, mut rest) = ([0u8; 10], 10, number);
    loop {
        at -= 1;
        digits[at] = b'0' + (rest % 10) as u8;
        rest /= 10;
        if rest == 0 {
            break;
        }
    }
    out.extend_from_slice(&digits[at..]);
}

/// The kind that an indicator makes dora.
pub fn dora_of(kind: usize) -> usize {
    match kind {
        8 => 0,
        17 => 9,
        26 => 18,
        30 => 27,
        33 => 31,
        _ => kind + 1,
    }
}

#[derive(Clone, Copy, Debug, PartialEq, Eq)]
pub enum Meld {
    Chi(u8),
    Pon(u8),
    Kan(u8),
    Ankan(u8),
}

#[derive(Clone, Copy, Debug)]
pub struct Melds {
    pub items: [Meld; 4],
    pub count: usize,
}

impl Melds {
    pub fn none() -> Melds {
        Melds { items: [Meld::Chi(0); 4], count: 0 }
    }

    pub fn iter(&self) -> impl Iterator<Item = &Meld> {
        self.items[..self.count].iter()
    }

    pub fn concealed(&self) -> bool {
        self.iter().all(|meld| matches!(meld, Meld::Ankan(_)))
    }

    /// Adds the meld tiles to some counts.
    pub fn add_to(&self, counts: &mut Counts) {
        for meld in self.iter() {
            match *meld {
                Meld::Chi(low) => (low..low + 3).for_each(|kind| counts[kind as usize] += 1),
                Meld::Pon(kind) => counts[kind as usize] += 3,
                Meld::Kan(kind) | Meld::Ankan(kind) => counts[kind as usize] += 4,
            }
        }
    }
}

/// The meld that a text spells, and its zeros.
pub fn read_meld(text: &[u8]) -> Option<(Meld, u8)> {
    let colon = text.iter().position(|&byte| byte == b':')?;
    let Tiles { counts, total, reds } = read_tiles(&text[colon + 1..]).ok()?;
    let low = Each(at_least(&counts, 1)).next()? as u8;
    let held = counts[low as usize];
    let meld = match &text[..colon] {
        b"chi" if low < 27 && low % 9 < 7 && total == 3 && held == 1 && counts[low as usize + 1] == 1 && counts[low as usize + 2] == 1 => Meld::Chi(low),
        b"pon" if total == 3 && held == 3 => Meld::Pon(low),
        b"kan" if total == 4 && held == 4 => Meld::Kan(low),
        b"ankan" if total == 4 && held == 4 => Meld::Ankan(low),
        _ => return None,
    };
    Some((meld, reds))
}
