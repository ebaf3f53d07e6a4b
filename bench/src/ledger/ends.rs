//! Places and final points.
use super::rules::{Left, Rules, Ties};
use super::state::{Four, State};

/// The end of a game for the four players, by first seat.
pub struct Finals {
    /// With the sticks that lay at the end.
    pub points: Four,
    /// From 1.
    pub places: [usize; 4],
    pub bonuses: Four,
    pub totals: Four,
}

/// The points with the sticks that lie at the end.
fn with_sticks(rules: &Rules, state: &State) -> Four {
    let mut points = state.points;
    if rules.left == Left::First {
        let most = points.iter().max().expect("there are four");
        let first = points.iter().position(|points| points == most).expect("one has most");
        points[first] += 1000 * state.sticks;
    }
    points
}

/// How many are ahead of a player: with more points, or by the seat where that tells equals apart.
pub fn ahead(ties: Ties, points: &Four, player: usize) -> usize {
    let is_ahead = |&other: &usize| {
        points[other] > points[player] || ties == Ties::Seat && points[other] == points[player] && other < player
    };
    (0..4).filter(is_ahead).count()
}

/// The bonuses of the four places.
fn place_bonuses(rules: &Rules) -> Four {
    let mut bonuses = rules.uma;
    bonuses[0] += 4 * (rules.back - rules.start);
    bonuses
}

/// The bonus of each player: those of one place share the bonuses of the places that they take, in hundreds.
fn bonuses(rules: &Rules, places: &[usize; 4]) -> Four {
    let all = place_bonuses(rules);
    let mut bonuses = [0; 4];
    for place in 1..=4 {
        let players: Vec<usize> = (0..4).filter(|&player| places[player] == place).collect();
        if players.is_empty() {
            continue;
        }
        let count = players.len() as i64;
        let hundreds = all[place - 1..place - 1 + players.len()].iter().sum::<i64>() / 100;
        let (each, rest) = (hundreds.div_euclid(count), hundreds.rem_euclid(count));
        for (at, &player) in players.iter().enumerate() {
            bonuses[player] = 100 * (each + i64::from((at as i64) < rest));
        }
    }
    bonuses
}

/// The final points, with these penalties.
pub fn finals(rules: &Rules, state: &State, penalties: &Four) -> Finals {
    let points = with_sticks(rules, state);
    let places = [0, 1, 2, 3].map(|player| 1 + ahead(rules.ties, &points, player));
    let bonuses = bonuses(rules, &places);
    let totals = [0, 1, 2, 3].map(|player| points[player] - rules.back + bonuses[player] - penalties[player]);
    let lost = if rules.left == Left::Lost { 1000 * state.sticks } else { 0 };
    let sum = totals.iter().sum::<i64>() + penalties.iter().sum::<i64>();
    assert_eq!(sum + lost, 0, "final points add up to nothing");
    Finals { points, places, bonuses, totals }
}
