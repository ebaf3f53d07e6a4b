//! The rules that a table plays by.
use crate::calls;
use std::{error, fmt, str::FromStr};

/// The rules: a profile, or those of a house. RULES.md of the release has them.
#[derive(Clone, Copy, Debug, PartialEq, Eq, Hash, Default)]
pub enum Rules {
    #[default]
    One,
    Two,
    House(House),
}

/// The rules of a house, each on or off. What isn't said is as the first profile has it:
///
/// ```
/// use riichi_desk::{answer, House, Rules};
/// let rules = Rules::House(House { red_fives: true, ura: false, ..House::default() });
/// let line = "win 123406789m22s34p on=2p by=ron seat=S round=E";
/// assert_eq!(answer(line, rules).as_deref(), Some("won 4 han 30 fu 7700 gain 7700 pinfu pure-straight dora 1"));
/// ```
#[derive(Clone, Copy, Debug, PartialEq, Eq, Hash)]
pub struct House {
    /// A `0` is a red five, and one dora (aka dora).
    pub red_fives: bool,
    /// Four han 30 fu and three han 60 fu are a mangan (kiriage mangan).
    pub raise: bool,
    /// Several yakuman pay a limit each.
    pub add_yakuman: bool,
    /// Big four winds and three rarer forms pay two limits.
    pub double_yakuman: bool,
    /// 13 han and more pay a yakuman (kazoe yakuman).
    pub counted_yakuman: bool,
    /// A pair of both the seat wind and the round wind has 4 fu; off, 2.
    pub double_wind_pair: bool,
    /// The draw after a kong has the 2 fu of any self-draw.
    pub kong_draw_fu: bool,
    /// All simples holds for an open hand too (kuitan).
    pub open_simples: bool,
    /// An open hand won by ron whose fu are 20 counts 30.
    pub open_pinfu_fu: bool,
    /// A win within one turn of riichi has the yaku ippatsu.
    pub ippatsu: bool,
    /// The indicators below count (ura dora).
    pub ura: bool,
    /// A win by ron before the own first draw, of a seat that isn't the dealer's, is a yakuman (renhou).
    pub blessing_of_man: bool,
}

impl Default for House {
    fn default() -> Self {
        House {
            red_fives: false,
            raise: false,
            add_yakuman: false,
            double_yakuman: false,
            counted_yakuman: true,
            double_wind_pair: true,
            kong_draw_fu: true,
            open_simples: true,
            open_pinfu_fu: true,
            ippatsu: true,
            ura: true,
            blessing_of_man: false,
        }
    }
}

impl Rules {
    /// The same, each rule by itself.
    fn house(self) -> House {
        match self {
            Rules::One => House::default(),
            Rules::Two => House { red_fives: true, raise: true, ..House::default() },
            Rules::House(house) => house,
        }
    }

    /// The number that a call takes.
    pub(crate) fn number(self) -> u32 {
        match self {
            Rules::One => 1,
            Rules::Two => 2,
            Rules::House(house) => house.number(),
        }
    }
}

impl House {
    /// The bits of the rules that are on, and the one that says that they are of a house.
    fn number(self) -> u32 {
        self.bits().into_iter().zip(0..).fold(0x10000, |number, (is_on, place)| number | u32::from(is_on) << place)
    }

    /// Those whose bits these are.
    fn of_bits(bits: u32) -> Self {
        let is_on = |place: u32| bits >> place & 1 == 1;
        House {
            red_fives: is_on(0),
            raise: is_on(1),
            add_yakuman: is_on(2),
            double_yakuman: is_on(3),
            counted_yakuman: is_on(4),
            double_wind_pair: is_on(5),
            kong_draw_fu: is_on(6),
            open_simples: is_on(7),
            open_pinfu_fu: is_on(8),
            ippatsu: is_on(9),
            ura: is_on(10),
            blessing_of_man: is_on(11),
        }
    }

    /// The rules in the order of their bits, the lowest first.
    fn bits(self) -> [bool; 12] {
        [
            self.red_fives,
            self.raise,
            self.add_yakuman,
            self.double_yakuman,
            self.counted_yakuman,
            self.double_wind_pair,
            self.kong_draw_fu,
            self.open_simples,
            self.open_pinfu_fu,
            self.ippatsu,
            self.ura,
            self.blessing_of_man,
        ]
    }
}

/// A text that names no rules.
#[derive(Clone, Copy, Debug, PartialEq, Eq)]
pub struct RulesFault {
    /// Where its first wrong word stands, in bytes from 0.
    pub place: usize,
}

impl fmt::Display for RulesFault {
    fn fmt(&self, out: &mut fmt::Formatter<'_>) -> fmt::Result {
        write!(out, "no rules from byte {} on; they are 1, 2, or with changes, as 1+red-fives-ura", self.place)
    }
}

impl error::Error for RulesFault {}

/// The rules of a text, as answers and the option `--rules` have them:
///
/// ```
/// use riichi_desk::Rules;
/// assert_eq!("2".parse(), Ok(Rules::Two));
/// assert!("1+red-fives-ura".parse::<Rules>().is_ok());
/// assert_eq!("1+red-five".parse::<Rules>().map_err(|fault| fault.place), Err(2));
/// ```
impl FromStr for Rules {
    type Err = RulesFault;

    fn from_str(text: &str) -> Result<Self, RulesFault> {
        let mut place = 0;
        // SAFETY: the pointers are those of a slice and of a `&mut`, so they are valid for their lengths, not null, and overlap nothing.
        let number = unsafe { calls::riichi_rules(text.as_ptr(), text.len(), &mut place) };
        if number == 0 {
            return Err(RulesFault { place });
        }
        let house = House::of_bits(number);
        let profiles = [Rules::One, Rules::Two];
        let profile = profiles.into_iter().find(|it| it.house() == house);
        Ok(profile.unwrap_or(Rules::House(house)))
    }
}
