//! Questions of a player.
use crate::calls;
use std::str;

/// So many hands have room where there is too little; no list has more than the last.
const STEPS: [usize; 3] = [512, 5120, 65535];

const TOO_FEW: &str = r#"{"answer":"refused","code":"places"}"#;

/// Answers questions of a player, one after the other: what stands beyond a hand's next step, which calls bring it nearer, what is safe,
/// how likely it is to be ready, and to win, and what it is worth. Chances and worths of a far hand take some megabytes, which are kept
/// for the next question.
pub struct Study {
    places: Vec<[u16; 564]>,
    rows: Vec<[u64; 152]>,
    worths: Vec<[u64; 57]>,
    room: Box<[u8; calls::MOST_STUDY]>,
}

impl Study {
    pub fn new() -> Self {
        Study { places: Vec::new(), rows: Vec::new(), worths: Vec::new(), room: Box::new([0; calls::MOST_STUDY]) }
    }

    fn told(&mut self, line: &[u8]) -> usize {
        // SAFETY: the pointers are those of slices, so they are valid for their lengths and not null, and each `&mut` overlaps nothing;
        // the places were zeros at first, and no one else has changed them.
        unsafe {
            calls::riichi_study(
                line.as_ptr(),
                line.len(),
                self.places.as_mut_ptr(),
                self.places.len(),
                self.rows.as_mut_ptr(),
                self.rows.len(),
                self.worths.as_mut_ptr(),
                self.worths.len(),
                self.room.as_mut_ptr(),
                self.room.len(),
            )
        }
    }

    fn is_refused(&self, needed: usize) -> bool {
        self.room[..needed] == *TOO_FEW.as_bytes()
    }

    /// The answer to a question as one object of JSON; `None` where the line is a comment or blank. A hand that may come to more than
    /// 65,535 hands is refused by the code `places`.
    pub fn json(&mut self, line: impl AsRef<[u8]>) -> Option<&str> {
        let mut needed = self.told(line.as_ref());
        for hands in STEPS {
            if self.is_refused(needed) && hands > self.places.len() {
                self.places = vec![[0; 564]; hands];
                self.rows = vec![[0; 152]; hands];
                self.worths = vec![[0; 57]; hands];
                needed = self.told(line.as_ref());
            }
        }
        Some(str::from_utf8(&self.room[..needed]).expect("answers are UTF-8")).filter(|it| !it.is_empty())
    }
}

impl Default for Study {
    fn default() -> Self {
        Self::new()
    }
}

/// The answer to one question, in a string of its own.
///
/// ```
/// let told = riichi_desk::study("chances 123456789m1134p turns=2").unwrap();
/// assert!(told.contains(r#""win":{"part":"316","whole":"2501","chance":0.1263}"#));
/// let told = riichi_desk::study("worth 123456789m1134p turns=1 seat=S round=E").unwrap();
/// assert!(told.contains(r#""worth":520.3252"#));
/// ```
pub fn study(line: impl AsRef<[u8]>) -> Option<String> {
    Study::new().json(line).map(str::to_owned)
}
