//! Answers the lines of standard input as values, each under the first profile, and tells them in the words of the command `line`.
use riichi_desk::{Accepted, Answer, Code, Kind, Payment, Refused, Room, Rules, Won};
use std::io::{self, BufRead, Write};

fn tiles(kinds: &[Kind]) -> String {
    let names: Vec<String> = kinds.iter().map(Kind::to_string).collect();
    let of_suit = |suit: char| names.iter().filter_map(move |name| name.strip_suffix(suit));
    let suits = "mpsz".chars().map(|suit| (of_suit(suit).collect::<String>(), suit));
    let told: String = suits.filter(|(digits, _)| !digits.is_empty()).map(|(digits, suit)| format!("{digits}{suit}")).collect();
    Some(told).filter(|told| !told.is_empty()).unwrap_or_else(|| "-".to_owned())
}

fn won(won: &Won) -> String {
    let worth = if won.yakuman { "yakuman".to_owned() } else { format!("{} han {} fu", won.han, won.fu) };
    let paid = match won.payment {
        Payment::Discarder(points) => points.to_string(),
        Payment::Others { dealer, each_other } => format!("{each_other}/{dealer}"),
        Payment::Each(points) => format!("{points} all"),
    };
    let yaku: String = won.yaku.iter().map(|it| format!(" {}", it.word)).collect();
    let dora = if won.dora > 0 { format!(" dora {}", won.dora) } else { String::new() };
    format!("won {worth} {paid} gain {}{yaku}{dora}", won.gain)
}

fn accepted(told: &Accepted) -> String {
    let kinds: String = told.kinds.iter().map(|(kind, live)| format!(" {kind}:{live}")).collect();
    format!("accepts{} live {}", if kinds.is_empty() { " -" } else { &kinds }, told.live)
}

fn answered(answer: &Answer) -> String {
    match answer {
        Answer::Won(it) => won(it),
        Answer::NoYaku => "no yaku".to_owned(),
        Answer::NoWin => "no win".to_owned(),
        Answer::Waits(kinds) => format!("waits {}", tiles(kinds)),
        Answer::Accepts { shanten, accepted: told } => format!("shanten {shanten} {}", accepted(told)),
        Answer::Discards { shanten, discards } => {
            let told: String = discards.iter().map(|(kind, rest)| format!(" discard {kind} {}", accepted(rest))).collect();
            format!("shanten {shanten}{told}")
        }
    }
}

fn refused(why: &Refused) -> String {
    match (why.code, why.key, why.place) {
        (Code::N(_), Some(text), Some(place)) => format!("refused {} {text} at {place}", why.code),
        _ => format!("refused {}", why.code),
    }
}

fn main() -> io::Result<()> {
    let (mut out, mut room) = (io::BufWriter::new(io::stdout().lock()), Room::new());
    for line in io::stdin().lock().split(b'\n') {
        let line = line?;
        match room.value(line.strip_suffix(b"\r").unwrap_or(&line), Rules::One) {
            Ok(Some(answer)) => writeln!(out, "{}", answered(&answer))?,
            Ok(None) => {}
            Err(why) => writeln!(out, "{}", refused(&why))?,
        }
    }
    out.flush()
}
