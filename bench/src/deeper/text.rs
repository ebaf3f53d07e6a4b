//! Questions of a player and their answers, as `riichi_desk study` writes them.
//!
//! `shape HAND [open=..] [seen=..] [order=live|second|good]`: the shape, with second and good behind what each hand accepts.
//! `calls HAND tile=T from=left|across|right [open=..] [seen=..]`: each call that brings nearer, and a kong.
use super::calls::{calls, kong};
use super::distance::Known;
use super::hand::Hand;
use crate::tiles::{read_meld, read_tiles, write_counts, write_kind, Meld, Melds};
use std::io::{Read, Write};

/// What the discards of fourteen tiles are sorted by.
#[derive(Clone, Copy)]
enum Order {
    Live,
    Second,
    Good,
}

/// The words of a line behind its hand.
struct Asked {
    hand: Hand,
    order: Order,
    tile: usize,
    from_left: bool,
}

fn read(words: &[&str]) -> Option<Asked> {
    let hand = Hand { tiles: read_tiles(words.first()?.as_bytes()).ok()?.counts, melds: Melds::none(), seen: [0; 34] };
    let mut asked = Asked { hand, order: Order::Live, tile: 0, from_left: false };
    for word in &words[1..] {
        match word.split_once('=')? {
            ("seen", seen) => asked.hand.seen = read_tiles(seen.as_bytes()).ok()?.counts,
            ("open", open) => {
                for text in open.split(',') {
                    asked.hand.melds.items[asked.hand.melds.count] = read_meld(text.as_bytes())?.0;
                    asked.hand.melds.count += 1;
                }
            }
            ("tile", tile) => asked.tile = read_tiles(tile.as_bytes()).ok()?.counts.iter().position(|&held| held > 0)?,
            ("from", from) => asked.from_left = from == "left",
            ("order", "live") => asked.order = Order::Live,
            ("order", "second") => asked.order = Order::Second,
            ("order", "good") => asked.order = Order::Good,
            _ => return None,
        }
    }
    Some(asked)
}

/// The hand of a line, behind its first word.
pub fn read_hand(line: &str) -> Option<Hand> {
    let words: Vec<&str> = line.split(' ').collect();
    read(&words[1..]).map(|asked| asked.hand)
}

pub fn write_meld(out: &mut Vec<u8>, meld: Meld) {
    let (name, mut counts) = match meld {
        Meld::Chi(_) => ("chi:", [0; 34]),
        Meld::Pon(_) => ("pon:", [0; 34]),
        Meld::Kan(_) => ("kan:", [0; 34]),
        Meld::Ankan(_) => ("ankan:", [0; 34]),
    };
    Melds { items: [meld; 4], count: 1 }.add_to(&mut counts);
    out.extend_from_slice(name.as_bytes());
    write_counts(out, &counts);
}

fn write_shanten(out: &mut Vec<u8>, hand: &Hand, known: &mut Known) {
    out.extend_from_slice(format!("shanten {}", i32::from(hand.distance(known)) - 1).as_bytes());
}

fn write_accepted(out: &mut Vec<u8>, kinds: &[(usize, u8)]) {
    out.extend_from_slice(b" accepts");
    for &(kind, live) in kinds {
        out.push(b' ');
        write_kind(out, kind);
        out.extend_from_slice(&[b':', b'0' + live]);
    }
    if kinds.is_empty() {
        out.extend_from_slice(b" -");
    }
    out.extend_from_slice(format!(" live {}", live_of(kinds)).as_bytes());
}

fn live_of(kinds: &[(usize, u8)]) -> u32 {
    kinds.iter().map(|&(_, live)| u32::from(live)).sum()
}

fn write_figures(out: &mut Vec<u8>, figures: Option<(u32, u32)>) {
    if let Some((second, good)) = figures {
        out.extend_from_slice(format!(" second {second} good {good}").as_bytes());
    }
}

fn write_discard(out: &mut Vec<u8>, kind: usize) {
    out.extend_from_slice(b" discard ");
    write_kind(out, kind);
}

fn answer_shape(out: &mut Vec<u8>, hand: &Hand, order: Order, known: &mut Known) {
    write_shanten(out, hand, known);
    if hand.tiles.iter().sum::<u8>() as usize + 3 * hand.melds.count == 13 {
        write_accepted(out, &hand.accepted(known));
        return write_figures(out, hand.deeper(known));
    }
    let mut discards = Vec::new();
    for kind in hand.best(known) {
        let rest = hand.without(kind);
        discards.push((kind, rest.accepted(known), rest.deeper(known)));
    }
    // (of equals the lower kind, as they stand)
    discards.sort_by_key(|(_, kinds, figures)| {
        let (second, good) = figures.unwrap_or((0, 0));
        let first = match order {
            Order::Live => 0,
            Order::Second => second,
            Order::Good => good,
        };
        std::cmp::Reverse((first, live_of(kinds)))
    });
    for (kind, kinds, figures) in discards {
        write_discard(out, kind);
        write_accepted(out, &kinds);
        write_figures(out, figures);
    }
}

fn answer_calls(out: &mut Vec<u8>, asked: &Asked, known: &mut Known) {
    out.extend_from_slice(b"calls");
    let calls = calls(&asked.hand, asked.tile, asked.from_left, known);
    if calls.is_empty() {
        out.extend_from_slice(b" none");
    }
    for call in calls {
        out.push(b' ');
        write_meld(out, call.meld);
        out.extend_from_slice(format!(" shanten {}", i32::from(asked.hand.distance(known)) - 2).as_bytes());
        for (kind, kinds) in call.discards {
            write_discard(out, kind);
            write_accepted(out, &kinds);
        }
    }
    if let Some((meld, after)) = kong(&asked.hand, asked.tile) {
        out.push(b' ');
        write_meld(out, meld);
        out.push(b' ');
        write_shanten(out, &after, known);
        write_accepted(out, &after.accepted(known));
    }
}

/// Answers the lines of standard input.
pub fn answer() -> std::io::Result<()> {
    let mut text = String::new();
    std::io::stdin().read_to_string(&mut text)?;
    let (mut out, mut known) = (Vec::new(), Known::default());
    for line in text.lines() {
        let words: Vec<&str> = line.split(' ').collect();
        match (words[0], read(&words[1..])) {
            ("shape", Some(asked)) => answer_shape(&mut out, &asked.hand, asked.order, &mut known),
            ("calls", Some(asked)) => answer_calls(&mut out, &asked, &mut known),
            _ => out.extend_from_slice(b"?"),
        }
        out.push(b'\n');
    }
    std::io::stdout().write_all(&out)
}
