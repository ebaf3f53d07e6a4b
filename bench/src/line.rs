//! Record lines.
use crate::house::{House, Switch};
use crate::kinds::{at_least, Each};
use crate::tiles::{dora_of, read_meld, read_tiles, Counts, Fault, Meld, Melds, Tiles};

/// A line of so many bytes is read, a longer one refused.
const LONGEST: usize = 4096;

#[derive(Clone, Copy, PartialEq, Eq, Debug)]
pub enum LineFault {
    Coded(u8),
    Notation(&'static str, Fault),
}

#[derive(Clone, Copy, Default)]
pub struct Flags {
    pub ippatsu: bool,
    pub rinshan: bool,
    pub chankan: bool,
    pub last: bool,
    pub first: bool,
}

pub struct Win {
    pub house: House,
    pub concealed: Counts,
    pub melds: Melds,
    pub winning: u8,
    pub is_tsumo: bool,
    pub seat: u8,
    pub round: u8,
    pub riichi: u8,
    pub flags: Flags,
    /// The kinds that indicators make dora.
    pub dora: [u8; 10],
    pub dora_count: usize,
    pub has_ura: bool,
    pub counters: u8,
    pub sticks: u8,
    pub reds: u8,
}

pub enum Job {
    Win(Win),
    Waits(Counts, Melds),
    Shape(Counts, Melds, Counts),
}

/// The keys, and the texts of tiles among them first.
#[derive(Clone, Copy)]
enum Key {
    On,
    Open,
    Dora,
    Ura,
    Seen,
    By,
    Seat,
    Round,
    Riichi,
    Flags,
    Counters,
    Sticks,
}

impl Key {
    /// The key and the value of a word.
    #[inline(always)]
    fn of(word: &[u8]) -> Option<(Key, &[u8])> {
        Some(match word {
            [b'o', b'n', b'=', value @ ..] => (Key::On, value),
            [b'b', b'y', b'=', value @ ..] => (Key::By, value),
            [b's', b'e', b'a', b't', b'=', value @ ..] => (Key::Seat, value),
            [b'r', b'o', b'u', b'n', b'd', b'=', value @ ..] => (Key::Round, value),
            [b'r', b'i', b'i', b'c', b'h', b'i', b'=', value @ ..] => (Key::Riichi, value),
            [b'o', b'p', b'e', b'n', b'=', value @ ..] => (Key::Open, value),
            [b'd', b'o', b'r', b'a', b'=', value @ ..] => (Key::Dora, value),
            [b'u', b'r', b'a', b'=', value @ ..] => (Key::Ura, value),
            [b's', b'e', b'e', b'n', b'=', value @ ..] => (Key::Seen, value),
            [b'f', b'l', b'a', b'g', b's', b'=', value @ ..] => (Key::Flags, value),
            [b's', b't', b'i', b'c', b'k', b's', b'=', value @ ..] => (Key::Sticks, value),
            [b'c', b'o', b'u', b'n', b't', b'e', b'r', b's', b'=', value @ ..] => (Key::Counters, value),
            _ => return None,
        })
    }

    const fn bit(self) -> u16 {
        1 << self as u16
    }
}

const NEEDED: u16 = Key::On.bit() | Key::By.bit() | Key::Seat.bit() | Key::Round.bit();
/// The keys of a win, of waits, of a shape.
const ALLOWED: [u16; 3] = [4095 ^ Key::Seen.bit(), Key::Open.bit(), Key::Open.bit() | Key::Seen.bit()];

fn wind(value: &[u8]) -> Option<u8> {
    match value {
        b"E" => Some(27),
        b"S" => Some(28),
        b"W" => Some(29),
        b"N" => Some(30),
        _ => None,
    }
}

fn number(value: &[u8]) -> Option<u8> {
    match value {
        [one] if one.is_ascii_digit() => Some(one - b'0'),
        [ten, one] if ten.is_ascii_digit() && one.is_ascii_digit() => Some((ten - b'0') * 10 + one - b'0'),
        _ => None,
    }
}

fn flags(value: &[u8]) -> Option<Flags> {
    let mut flags = Flags::default();
    for word in value.split(|&byte| byte == b',') {
        let flag = match word {
            b"ippatsu" => &mut flags.ippatsu,
            b"rinshan" => &mut flags.rinshan,
            b"chankan" => &mut flags.chankan,
            b"last" => &mut flags.last,
            b"first" => &mut flags.first,
            _ => return None,
        };
        if *flag {
            return None;
        }
        *flag = true;
    }
    Some(flags)
}

/// Where the byte is first, or the length.
#[inline(always)]
fn find(text: &[u8], byte: u8) -> usize {
    const ONES: u64 = 0x0101_0101_0101_0101;
    let mut at = 0;
    while let Some(bytes) = text[at..].first_chunk::<8>() {
        let zeros = u64::from_le_bytes(*bytes) ^ (ONES * u64::from(byte));
        let found = zeros.wrapping_sub(ONES) & !zeros & (ONES << 7);
        if found != 0 {
            return at + found.trailing_zeros() as usize / 8;
        }
        at += 8;
    }
    text[at..].iter().position(|&here| here == byte).map_or(text.len(), |more| at + more)
}

/// The words of a line.
struct Words<'a>(&'a [u8]);

impl<'a> Iterator for Words<'a> {
    type Item = &'a [u8];

    #[inline(always)]
    fn next(&mut self) -> Option<&'a [u8]> {
        while let Some((b' ', rest)) = self.0.split_first() {
            self.0 = rest;
        }
        if self.0.is_empty() {
            return None;
        }
        let (word, rest) = self.0.split_at(find(self.0, b' '));
        self.0 = rest;
        Some(word)
    }
}

/// The values of a line, texts of tiles still unread.
#[derive(Default)]
struct Fields<'a> {
    present: u16,
    is_doubled: bool,
    texts: [&'a [u8]; 5],
    is_tsumo: bool,
    seat: u8,
    round: u8,
    riichi: u8,
    flags: Flags,
    counters: u8,
    sticks: u8,
}

impl<'a> Fields<'a> {
    fn text(&self, key: Key) -> Option<&'a [u8]> {
        (self.present & key.bit() != 0).then_some(self.texts[key as usize])
    }

    /// Keeps a value; none where it is not in the table of its key.
    fn keep(&mut self, key: Key, value: &'a [u8]) -> Option<()> {
        match key {
            Key::By if value == b"ron" => self.is_tsumo = false,
            Key::By if value == b"tsumo" => self.is_tsumo = true,
            Key::By => return None,
            Key::Seat => self.seat = wind(value)?,
            Key::Round => self.round = wind(value)?,
            Key::Riichi => self.riichi = number(value).filter(|&number| value.len() == 1 && number < 3)?,
            Key::Flags => self.flags = flags(value)?,
            Key::Counters => self.counters = number(value)?,
            Key::Sticks => self.sticks = number(value)?,
            Key::On | Key::Open | Key::Dora | Key::Ura | Key::Seen => self.texts[key as usize] = value,
        }
        self.is_doubled |= self.present & key.bit() != 0;
        self.present |= key.bit();
        Some(())
    }
}

fn fields<'a>(words: impl Iterator<Item = &'a [u8]>, allowed: u16) -> Option<Fields<'a>> {
    let mut fields = Fields::default();
    for word in words {
        let (key, value) = Key::of(word)?;
        if allowed & key.bit() == 0 {
            return None;
        }
        fields.keep(key, value)?;
    }
    Some(fields)
}

fn melds(value: Option<&[u8]>, reds: &mut u8) -> Option<Melds> {
    let mut melds = Melds::none();
    let Some(value) = value else {
        return Some(melds);
    };
    for word in value.split(|&byte| byte == b',') {
        let (meld, zeros) = read_meld(word)?;
        if melds.count == 4 {
            return None;
        }
        melds.items[melds.count] = meld;
        melds.count += 1;
        *reds += zeros;
    }
    Some(melds)
}

fn tiles(name: &'static str, text: &[u8]) -> Result<Tiles, LineFault> {
    read_tiles(text).map_err(|fault| LineFault::Notation(name, fault))
}

/// Adds the tiles of a text, where there is one, and tells them.
#[inline(always)]
fn add(all: &mut Counts, name: &'static str, text: Option<&[u8]>) -> Result<Tiles, LineFault> {
    let Some(text) = text else {
        return Ok(Tiles::none());
    };
    let told = tiles(name, text)?;
    all.iter_mut().zip(&told.counts).for_each(|(held, more)| *held += more);
    Ok(told)
}

/// The kinds that indicators make dora.
fn keep_dora(win: &mut Win, indicators: &Tiles) {
    for kind in Each(if indicators.total > 0 { at_least(&indicators.counts, 1) } else { 0 }) {
        for _ in 0..indicators.counts[kind] {
            win.dora[win.dora_count] = dora_of(kind) as u8;
            win.dora_count += 1;
        }
    }
}

/// The job of a line, none where it is no record, or its first fault. Of a plain line all bytes are printable.
pub fn read_line(house: House, line: &[u8], is_plain: bool) -> Result<Option<Job>, LineFault> {
    use LineFault::Coded;
    if line.len() > LONGEST {
        return Err(Coded(1));
    }
    if line.first() == Some(&b'#') || line.iter().all(|&byte| byte == b' ') {
        return Ok(None);
    }
    if !is_plain && line.iter().any(|byte| !(0x20..=0x7e).contains(byte)) {
        return Err(Coded(1));
    }
    let mut words = Words(line);
    let job = match words.next() {
        Some(b"win") => 0,
        Some(b"waits") => 1,
        Some(b"shape") => 2,
        _ => return Err(Coded(2)),
    };
    let hand = words.next().filter(|word| find(word, b'=') == word.len()).ok_or(Coded(3))?;
    let fields = fields(words, ALLOWED[job]).ok_or(Coded(4))?;
    read_job(house, job, hand, &fields).map(Some)
}

/// What a table knows of a win beside its hand: how and by whom it was won, and whether the winner is named as one who bet.
pub struct Known {
    pub is_tsumo: bool,
    pub seat: u8,
    pub round: u8,
    pub has_bet: bool,
}

/// The bytes of the line of a win that says what a hand in a game says, and what the game knows.
fn line_size(hand: &str, words: &[&str], known: &Known) -> usize {
    let by = if known.is_tsumo { "tsumo" } else { "ron" };
    let has_riichi = words.iter().any(|word| word.starts_with("riichi="));
    let riichi = if known.has_bet && !has_riichi { " riichi=1".len() } else { 0 };
    let told = "win  by= seat=E round=E".len() + by.len() + riichi;
    told + hand.len() + words.iter().map(|word| 1 + word.len()).sum::<usize>()
}

/// The win of a hand and its words at a table that knows the rest. The line that they stand for has a line's bytes at most.
pub fn read_hand(house: House, hand: &str, words: &[&str], known: &Known) -> Result<Win, LineFault> {
    use LineFault::Coded;
    let is_plain = |word: &str| word.bytes().all(|byte| (0x20..=0x7e).contains(&byte));
    let is_long = line_size(hand, words, known) > LONGEST;
    if is_long || !is_plain(hand) || !words.iter().all(|word| is_plain(word)) {
        return Err(Coded(1));
    }
    if hand.contains('=') {
        return Err(Coded(3));
    }
    let told = Key::By.bit() | Key::Seat.bit() | Key::Round.bit() | Key::Counters.bit() | Key::Sticks.bit();
    let mut fields = fields(words.iter().map(|word| word.as_bytes()), ALLOWED[0] & !told).ok_or(Coded(4))?;
    if known.has_bet && fields.present & Key::Riichi.bit() == 0 {
        fields.riichi = 1;
    }
    fields.present |= told;
    (fields.is_tsumo, fields.seat, fields.round) = (known.is_tsumo, known.seat, known.round);
    match read_job(house, 0, hand.as_bytes(), &fields)? {
        Job::Win(win) => Ok(win),
        _ => unreachable!("the job is a win"),
    }
}

fn read_job(house: House, job: usize, hand: &[u8], fields: &Fields) -> Result<Job, LineFault> {
    use LineFault::Coded;
    if fields.is_doubled {
        return Err(Coded(5));
    }
    if job == 0 && fields.present & NEEDED != NEEDED {
        return Err(Coded(6));
    }
    let held = tiles("hand", hand)?;
    let mut all = held.counts;
    let on = add(&mut all, "on", fields.text(Key::On))?;
    let dora = add(&mut all, "dora", fields.text(Key::Dora))?;
    let ura = add(&mut all, "ura", fields.text(Key::Ura))?;
    let seen = add(&mut all, "seen", fields.text(Key::Seen))?;
    let mut reds = held.reds + on.reds;
    let melds = melds(fields.text(Key::Open), &mut reds).ok_or(Coded(7))?;
    let size = held.total + 3 * melds.count;
    if !(size == 13 || job == 2 && size == 14) || job == 0 && (on.total != 1 || dora.total > 5 || ura.total > 5) {
        return Err(Coded(8));
    }
    melds.add_to(&mut all);
    if at_least(&all, 5) != 0 {
        return Err(Coded(9));
    }
    match job {
        1 => return Ok(Job::Waits(held.counts, melds)),
        2 => return Ok(Job::Shape(held.counts, melds, seen.counts)),
        _ => {}
    }
    let mut win = Win {
        house,
        concealed: held.counts,
        melds,
        winning: at_least(&on.counts, 1).trailing_zeros() as u8,
        is_tsumo: fields.is_tsumo,
        seat: fields.seat,
        round: fields.round,
        riichi: fields.riichi,
        flags: fields.flags,
        dora: [0; 10],
        dora_count: 0,
        has_ura: ura.total > 0,
        counters: fields.counters,
        sticks: fields.sticks,
        reds: if house.has(Switch::RedFives) { reds } else { 0 },
    };
    keep_dora(&mut win, &dora);
    if house.has(Switch::Ura) {
        keep_dora(&mut win, &ura);
    }
    match fault_of(&win) {
        Some(code) => Err(Coded(code)),
        None => Ok(Job::Win(win)),
    }
}

/// Whether a win may be one before the second draw: by self-draw, or where the blessing of man counts by another seat's ron.
fn may_be_first(win: &Win) -> bool {
    win.is_tsumo || win.house.has(Switch::BlessingOfMan) && win.seat != 27
}

/// The first of the faults from H10 on.
fn fault_of(win: &Win) -> Option<u8> {
    let flags = win.flags;
    let has_kong = win.melds.iter().any(|meld| matches!(meld, Meld::Kan(_) | Meld::Ankan(_)));
    let others = flags.ippatsu || flags.rinshan || flags.chankan || flags.last;
    if win.riichi > 0 && !win.melds.concealed() {
        Some(10)
    } else if win.riichi == 0 && (flags.ippatsu || win.has_ura) {
        Some(11)
    } else if flags.rinshan && (!win.is_tsumo || !has_kong) {
        Some(12)
    } else if flags.chankan && win.is_tsumo {
        Some(13)
    } else if flags.rinshan && (flags.last || flags.ippatsu) || flags.chankan && flags.last {
        Some(14)
    } else if flags.first && (win.melds.count > 0 || !may_be_first(win) || win.riichi > 0 || others) {
        Some(15)
    } else {
        None
    }
}
