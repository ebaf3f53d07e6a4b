//! The rules by which a table values hands.

/// One of the rules that a table may choose, in the order of docs/RULES.md.
#[derive(Clone, Copy)]
pub enum Switch {
    RedFives,
    Raise,
    AddYakuman,
    DoubleYakuman,
    CountedYakuman,
    DoubleWindPair,
    KongDrawFu,
    OpenSimples,
    OpenPinfuFu,
    Ippatsu,
    Ura,
    BlessingOfMan,
}

pub const SWITCHES: [(&str, Switch); 12] = [
    ("red-fives", Switch::RedFives),
    ("raise", Switch::Raise),
    ("add-yakuman", Switch::AddYakuman),
    ("double-yakuman", Switch::DoubleYakuman),
    ("counted-yakuman", Switch::CountedYakuman),
    ("double-wind-pair", Switch::DoubleWindPair),
    ("kong-draw-fu", Switch::KongDrawFu),
    ("open-simples", Switch::OpenSimples),
    ("open-pinfu-fu", Switch::OpenPinfuFu),
    ("ippatsu", Switch::Ippatsu),
    ("ura", Switch::Ura),
    ("blessing-of-man", Switch::BlessingOfMan),
];

/// Which of the rules are on, a bit each.
#[derive(Clone, Copy, PartialEq, Eq, Debug)]
pub struct House(u16);

impl House {
    /// The first profile: the rules from `counted-yakuman` to `ura`.
    pub const ONE: House = House(0b0111_1111_0000);
    /// The second profile: red fives and raised hands beside them.
    pub const TWO: House = House(0b0111_1111_0011);

    #[inline(always)]
    pub fn has(self, switch: Switch) -> bool {
        self.0 >> switch as u16 & 1 == 1
    }

    pub fn with(self, switch: Switch, is_on: bool) -> House {
        let bit = 1 << switch as u16;
        House(if is_on { self.0 | bit } else { self.0 & !bit })
    }

    /// The rules that words such as `1+red-fives-ura` name.
    pub fn named(words: &str) -> Option<House> {
        let (mut house, mut rest) = match words.as_bytes().first()? {
            b'1' => (House::ONE, &words[1..]),
            b'2' => (House::TWO, &words[1..]),
            _ => return None,
        };
        while !rest.is_empty() {
            let is_on = rest.starts_with('+');
            let behind = rest.strip_prefix(['+', '-'])?;
            let is_word = |word: &str| behind.strip_prefix(word).is_some_and(|more| more.is_empty() || more.starts_with(['+', '-']));
            let (word, switch) = *SWITCHES.iter().find(|(word, _)| is_word(word))?;
            house = house.with(switch, is_on);
            rest = &behind[word.len()..];
        }
        Some(house)
    }
}
