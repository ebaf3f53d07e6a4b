//! Bytes at the end of a text, by stores of fixed size.

/// Writes into room that was asked for at once.
pub struct Pen<'a> {
    out: &'a mut Vec<u8>,
    length: usize,
}

impl Pen<'_> {
    /// A pen that may write so many bytes, and eight more.
    pub fn new(out: &mut Vec<u8>, room: usize) -> Pen<'_> {
        out.reserve(room + 8);
        Pen { length: out.len(), out }
    }

    /// Writes the first bytes of a word, at most eight.
    #[inline(always)]
    pub fn word(&mut self, word: u64, size: usize) {
        debug_assert!(self.length + 8 <= self.out.capacity() && size <= 8);
        // SAFETY: `new` made room for all that is written and for one whole word.
        unsafe { self.out.as_mut_ptr().add(self.length).cast::<u64>().write_unaligned(word.to_le()) };
        self.length += size;
    }

    #[inline(always)]
    pub fn byte(&mut self, byte: u8) {
        self.word(byte.into(), 1);
    }

    #[inline(always)]
    pub fn text(&mut self, text: &[u8]) {
        debug_assert!(self.length + text.len() + 8 <= self.out.capacity());
        // SAFETY: as above.
        unsafe { self.out.as_mut_ptr().add(self.length).copy_from_nonoverlapping(text.as_ptr(), text.len()) };
        self.length += text.len();
    }

    #[inline(always)]
    pub fn number(&mut self, number: u32) {
        match number {
            0..=9 => self.word(u64::from(number) + 0x30, 1),
            10..=99 => self.word(u64::from(number / 10 + number % 10 * 256) + 0x3030, 2),
            _ => {
                self.number(number / 100);
                let rest = number % 100;
                self.word(u64::from(rest / 10 + rest % 10 * 256) + 0x3030, 2);
            }
        }
    }
}

impl Drop for Pen<'_> {
    fn drop(&mut self) {
        // SAFETY: all bytes up to here were written.
        unsafe { self.out.set_len(self.length) };
    }
}

/// The two bytes of each kind.
pub const NAMES: [u64; 34] = names();

const fn names() -> [u64; 34] {
    let mut names = [0; 34];
    let mut kind = 0;
    while kind < 34 {
        names[kind] = b'1' as u64 + kind as u64 % 9 + ((b"mpsz"[kind / 9] as u64) << 8);
        kind += 1;
    }
    names
}
