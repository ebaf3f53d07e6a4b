//! Who pays whom.
use super::rules::{Counters, Ron, Rules, Sticks};
use super::state::{Deal, Four, Kind, Liable, Outcome, Some4, State, Win};

/// The points after a deal, the sticks that lie then, and what of the deal says who deals next.
pub struct Paid {
    pub points: Four,
    pub sticks: i64,
    pub kind: Kind,
}

/// Rounded up to a hundred.
pub fn up(points: i64) -> i64 {
    (points + 99) / 100 * 100
}

/// A yakuman's base points.
pub const LIMIT: i64 = 8000;

pub fn paid(rules: &Rules, before: &State, deal: &Deal) -> Paid {
    let mut points = before.points;
    let mut sticks = before.sticks;
    for player in 0..4 {
        if deal.bets[player] {
            points[player] -= 1000;
            sticks += 1;
        }
    }
    let kind = match &deal.outcome {
        Outcome::Abort => Kind::Abort,
        Outcome::Draw { ready, nagashi } => {
            pay_draw(&mut points, before.dealer, ready, nagashi);
            Kind::Draw { is_dealer_ready: ready[before.dealer] }
        }
        Outcome::Tsumo(win) => {
            pay_self_draw(&mut points, before, win);
            points[win.winner] += 1000 * std::mem::take(&mut sticks);
            won_by(win.winner == before.dealer)
        }
        Outcome::Ron { discarder, wins } => {
            let winners = winners(rules, *discarder, wins);
            if winners.is_empty() {
                Kind::Abort
            } else {
                pay_winners(rules, &mut points, before, *discarder, &winners);
                give_sticks(rules, &mut points, std::mem::take(&mut sticks), &winners, &deal.bets);
                won_by(winners.iter().any(|win| win.winner == before.dealer))
            }
        }
    };
    Paid { points, sticks, kind }
}

fn won_by(is_dealer: bool) -> Kind {
    if is_dealer { Kind::DealerWins } else { Kind::OtherWins }
}

/// Those who win of all who said ron, the nearest behind the discarder first; none where the deal is an abort.
pub fn winners(rules: &Rules, discarder: usize, wins: &[Win]) -> Vec<Win> {
    let mut winners = wins.to_vec();
    winners.sort_by_key(|win| (win.winner + 4 - discarder) % 4);
    match rules.ron {
        Ron::All => {}
        Ron::Nearest => winners.truncate(1),
        Ron::Two if winners.len() > 2 => winners.clear(),
        Ron::Two => {}
    }
    winners
}

fn pay_winners(rules: &Rules, points: &mut Four, before: &State, discarder: usize, winners: &[Win]) {
    for (place, win) in winners.iter().enumerate() {
        let is_paid = place == 0 || rules.counters == Counters::Each;
        let counters = if is_paid { before.counters } else { 0 };
        pay_ron(points, before.dealer, discarder, win, counters);
    }
}

/// Those who won get back their own bets of the deal, where the rules say so and there are several; the nearest has the rest.
fn give_sticks(rules: &Rules, points: &mut Four, sticks: i64, winners: &[Win], bets: &Some4) {
    let mut rest = sticks;
    if rules.sticks == Sticks::Own && winners.len() > 1 {
        for win in winners.iter().filter(|win| bets[win.winner]) {
            points[win.winner] += 1000;
            rest -= 1;
        }
    }
    points[winners[0].winner] += 1000 * rest;
}

fn pay(points: &mut Four, payer: usize, payee: usize, sum: i64) {
    points[payer] -= sum;
    points[payee] += sum;
}

/// What a discarder pays for so many base points.
fn ron_points(base: i64, is_dealer: bool) -> i64 {
    up(base * if is_dealer { 6 } else { 4 })
}

fn pay_ron(points: &mut Four, dealer: usize, discarder: usize, win: &Win, counters: i64) {
    let is_dealer = win.winner == dealer;
    let Some(Liable { player, limits }) = win.liable.filter(|liable| liable.player != discarder) else {
        return pay(points, discarder, win.winner, ron_points(win.worth.base, is_dealer) + 300 * counters);
    };
    let half = ron_points(LIMIT * limits, is_dealer) / 2;
    let rest = ron_points(win.worth.base - LIMIT * limits, is_dealer);
    pay(points, discarder, win.winner, half + rest);
    pay(points, player, win.winner, half + 300 * counters);
}

fn pay_self_draw(points: &mut Four, before: &State, win: &Win) {
    let Some(Liable { player, limits }) = win.liable else {
        return share_self_draw(points, before.dealer, win.winner, win.worth.base, before.counters);
    };
    let alone = ron_points(LIMIT * limits, win.winner == before.dealer) + 300 * before.counters;
    pay(points, player, win.winner, alone);
    share_self_draw(points, before.dealer, win.winner, win.worth.base - LIMIT * limits, 0);
}

fn share_self_draw(points: &mut Four, dealer: usize, winner: usize, base: i64, counters: i64) {
    for payer in (0..4).filter(|&payer| payer != winner) {
        let parts = if payer == dealer || winner == dealer { 2 } else { 1 };
        pay(points, payer, winner, up(base * parts) + 100 * counters);
    }
}

/// A mangan by self-draw, without counters and sticks; with -1 it is paid backwards.
pub fn pay_mangan(points: &mut Four, dealer: usize, winner: usize, times: i64) {
    for payer in (0..4).filter(|&payer| payer != winner) {
        let parts = if payer == dealer || winner == dealer { 2 } else { 1 };
        pay(points, payer, winner, times * 2000 * parts);
    }
}

fn pay_draw(points: &mut Four, dealer: usize, ready: &Some4, nagashi: &Option<Some4>) {
    if let Some(players) = nagashi {
        (0..4).filter(|&player| players[player]).for_each(|player| pay_mangan(points, dealer, player, 1));
        return;
    }
    let count = ready.iter().filter(|&&is_ready| is_ready).count() as i64;
    if count == 0 || count == 4 {
        return;
    }
    for player in 0..4 {
        points[player] += if ready[player] { 3000 / count } else { -3000 / (4 - count) };
    }
}
