//! Reads the games of a tournament's sessions, as `seats` writes them, and checks each claim of the notes by its own count.
//!
//! It stops at the first thing that is wrong, with its words; else it prints what it counted, on one line.
use std::collections::BTreeMap;
use std::io::Read;

/// A line `game`, of a session and a table of it.
struct Game<'t> {
    players: [&'t str; 4],
    session: u32,
    at: u32,
}

/// What the notes say.
#[derive(Default)]
struct Claims<'t> {
    nobody_twice: bool,
    pairs: BTreeMap<(&'t str, &'t str), u32>,
    seats: BTreeMap<&'t str, [u32; 4]>,
}

/// Checks the text of standard input.
pub fn check() -> std::io::Result<()> {
    let mut text = String::new();
    std::io::stdin().read_to_string(&mut text)?;
    match checked(&text) {
        Ok(counted) => println!("{counted}"),
        Err(wrong) => {
            println!("wrong: {wrong}");
            std::process::exit(1)
        }
    }
    Ok(())
}

fn checked(text: &str) -> Result<String, String> {
    let mut games = Vec::new();
    let mut claims = Claims::default();
    for line in text.lines() {
        if line.starts_with('#') {
            claims.add(line)?;
        } else {
            games.push(game(line)?);
        }
    }
    let (players, sessions) = check_sessions(&games)?;
    let met = meetings(&games);
    let again: BTreeMap<_, _> = met.into_iter().filter(|(_, times)| *times > 1).collect();
    if again != claims.pairs || claims.nobody_twice != again.is_empty() {
        return Err(format!("the pairs that meet more than once are {again:?}"));
    }
    let seats = seat_counts(&games);
    if seats != claims.seats {
        return Err(format!("the seats are {seats:?}"));
    }
    let uneven = seats.values().filter(|counts| counts.iter().max().unwrap() - counts.iter().min().unwrap() > 1).count();
    Ok(format!("players {players} sessions {sessions} games {} pairs {} uneven {uneven}", games.len(), again.len()))
}

impl<'t> Claims<'t> {
    fn add(&mut self, line: &'t str) -> Result<(), String> {
        let words: Vec<&str> = line.split(' ').collect();
        let number = |word: &str| word.parse::<u32>().map_err(|_| format!("no number in {line}"));
        match words[..] {
            ["#", "no", "two", "meet", "twice"] => self.nobody_twice = true,
            ["#", one, "and", other, "meet", times, "times"] => {
                if self.pairs.insert(pair(one, other), number(times)?).is_some() {
                    return Err(format!("a pair stands twice: {line}"));
                }
            }
            ["#", "seats", name, east, south, west, north] => {
                let counts = [number(east)?, number(south)?, number(west)?, number(north)?];
                if self.seats.insert(name, counts).is_some() {
                    return Err(format!("a player stands twice: {line}"));
                }
            }
            _ => return Err(format!("no note of ours: {line}")),
        }
        Ok(())
    }
}

fn game(line: &str) -> Result<Game<'_>, String> {
    let words: Vec<&str> = line.split(' ').collect();
    let ["game", east, south, west, north, session, at, ..] = words[..] else {
        return Err(format!("no game: {line}"));
    };
    let number = |word: &str, key: &str| word.strip_prefix(key).and_then(|number| number.parse().ok());
    match (number(session, "session="), number(at, "at=")) {
        (Some(session), Some(at)) => Ok(Game { players: [east, south, west, north], session, at }),
        _ => Err(format!("no session and table: {line}")),
    }
}

/// In each session, from 1 on, each player sits once, and each table from 1 on has one game. How many players and sessions.
fn check_sessions(games: &[Game]) -> Result<(usize, usize), String> {
    let mut sessions: BTreeMap<u32, Vec<&Game>> = BTreeMap::new();
    for game in games {
        sessions.entry(game.session).or_default().push(game);
    }
    let mut all: Option<Vec<&str>> = None;
    for (at, (session, games)) in sessions.iter().enumerate() {
        if *session as usize != at + 1 || games.iter().enumerate().any(|(at, game)| game.at as usize != at + 1) {
            return Err(format!("session {session} or a table of it is out of order"));
        }
        let mut players: Vec<&str> = games.iter().flat_map(|game| game.players).collect();
        players.sort_unstable();
        if players.windows(2).any(|two| two[0] == two[1]) {
            return Err(format!("a player sits twice in session {session}"));
        }
        if *all.get_or_insert_with(|| players.clone()) != players {
            return Err(format!("session {session} has other players"));
        }
    }
    Ok((all.map_or(0, |players| players.len()), sessions.len()))
}

fn pair<'t>(one: &'t str, other: &'t str) -> (&'t str, &'t str) {
    if one < other { (one, other) } else { (other, one) }
}

/// How often each two players meet.
fn meetings<'t>(games: &[Game<'t>]) -> BTreeMap<(&'t str, &'t str), u32> {
    let mut met = BTreeMap::new();
    for game in games {
        for (at, one) in game.players.iter().enumerate() {
            for other in &game.players[at + 1..] {
                *met.entry(pair(one, other)).or_insert(0) += 1;
            }
        }
    }
    met
}

/// How often each player sits at each first seat.
fn seat_counts<'t>(games: &[Game<'t>]) -> BTreeMap<&'t str, [u32; 4]> {
    let mut seats: BTreeMap<&str, [u32; 4]> = BTreeMap::new();
    for game in games {
        for (seat, name) in game.players.iter().enumerate() {
            seats.entry(name).or_default()[seat] += 1;
        }
    }
    seats
}
