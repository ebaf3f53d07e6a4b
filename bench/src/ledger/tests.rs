//! The worked rows of the rules, and those of tests/ledger-rows.txt.
use super::game::answers;
use super::need::needs;
use crate::house::House;

fn answered(text: &str) -> Vec<String> {
    answers(text.as_bytes()).0.lines().map(String::from).collect()
}

/// The changes of the last deal of a text.
fn changes(text: &str) -> String {
    let lines = answered(text);
    let deal = lines.iter().rev().find(|line| line.contains(" changes ")).expect("there is a deal");
    let (_, changes) = deal.split_once(" changes ").expect("it has changes");
    changes.split_once(" points ").expect("and points").0.into()
}

/// The totals of a game that ends with these points, by place.
fn totals(rules: &str, place: &str) -> Vec<String> {
    let lines = answered(&format!("game Anna Bo Cyd Dee {rules}\nstands {place}\nend\n"));
    lines.iter().filter(|line| line.starts_with("final ")).map(|line| line.rsplit(' ').next().expect("a total").into()).collect()
}

fn last(text: &str) -> String {
    answered(text).last().cloned().unwrap_or_default()
}

#[test]
fn a_first_game() {
    let told = answered(
        "game Anna Bo Cyd Dee table=club session=1 at=3   # rules; session and table of a tournament\n\
         ron Bo from Cyd 1.30                             # han.fu\n\
         draw ready Anna,Bo riichi Anna\n\
         tsumo Dee 2.30\n",
    );
    let wanted = [
        "game Anna Bo Cyd Dee start 30000",
        "east 1 counters 0 sticks 0 changes 0 +1000 -1000 0 points 30000 31000 29000 30000",
        "east 2 counters 0 sticks 0 changes +500 +1500 -1500 -1500 points 30500 32500 27500 28500",
        "east 2 counters 1 sticks 1 changes -600 -1100 -600 +3300 points 29900 31400 26900 31800",
        "stands east 3 counters 0 sticks 0 points 29900 31400 26900 31800",
    ];
    assert_eq!(told, wanted);
}

#[test]
fn several_winners() {
    let line = "stands east 1 counters 2 sticks 1 points 29000 30000 30000 30000\nron Anna from Cyd 1.40 and Bo 1.30 riichi Anna\n";
    for (rules, wanted) in [("", "+3600 +1000 -3600 0"), ("counters=each", "+3600 +1600 -4200 0"), ("ron=nearest", "+3600 0 -2600 0")] {
        let text = format!("game Anna Bo Cyd Dee {rules}\n{line}");
        assert_eq!(changes(&text), wanted, "{rules}");
        assert!(last(&text).contains(" sticks 0 "), "no stick is left");
    }
}

#[test]
fn liability() {
    let begin = "game Anna Bo Cyd Dee rules=1+add-yakuman\nstands east 1 counters 1 sticks 0 points 30000 30000 30000 30000\n";
    assert_eq!(changes(&format!("{begin}tsumo Bo yakuman liable Dee\n")), "0 +32300 0 -32300");
    assert_eq!(changes(&format!("{begin}ron Bo from Cyd yakuman liable Dee\n")), "0 +32300 -16000 -16300");
    let text = "game Anna Bo Cyd Dee rules=1+add-yakuman\ntsumo Bo yakuman:2 liable Dee\n";
    assert_eq!(changes(text), "-16000 +64000 -8000 -40000");
}

#[test]
fn draws() {
    let begin = "game Anna Bo Cyd Dee nagashi=on\n";
    let told = last(&format!("{begin}draw ready Anna,Cyd riichi Cyd\n"));
    assert_eq!(told, "stands east 1 counters 1 sticks 1 points 31500 28500 30500 28500");
    assert_eq!(changes(&format!("{begin}draw ready Bo\n")), "-1000 +3000 -1000 -1000");
    assert_eq!(changes(&format!("{begin}draw ready Bo,Cyd,Dee\n")), "-3000 +1000 +1000 +1000");
    let two = format!("{begin}stands east 1 counters 2 sticks 0 points 30000 30000 30000 30000\n");
    assert_eq!(changes(&format!("{two}draw nagashi Anna\n")), "+12000 -4000 -4000 -4000");
    assert_eq!(last(&format!("{two}draw nagashi Anna\n")), "stands east 2 counters 3 sticks 0 points 42000 26000 26000 26000");
    assert_eq!(last(&format!("{two}draw ready Anna nagashi Anna\n")), "stands east 1 counters 3 sticks 0 points 42000 26000 26000 26000");
}

#[test]
fn aborts() {
    let told = last("game Anna Bo Cyd Dee\nabort riichi Anna,Bo,Cyd,Dee\n");
    assert_eq!(told, "stands east 1 counters 1 sticks 4 points 29000 29000 29000 29000");
    let told = last("game Anna Bo Cyd Dee ron=two\nron Anna from Dee 1.30 and Bo 1.30 and Cyd 1.30\n");
    assert_eq!(told, "stands east 1 counters 1 sticks 0 points 30000 30000 30000 30000");
}

#[test]
fn final_points() {
    let four = ["+26.3", "+2.7", "+2.7", "-31.7"];
    assert_eq!(totals("", "south 1 counters 0 sticks 0 points 41300 32700 32700 13300"), four);
    let league = |points: &str| totals("table=league", &format!("south 1 counters 0 sticks 0 points {points}"));
    assert_eq!(league("38200 27100 20100 14600"), ["+58.2", "+7.1", "-19.9", "-45.4"]);
    assert_eq!(league("28000 28000 28000 16000"), ["+14.7", "+14.7", "+14.6", "-44.0"]);
    let two = "south 1 counters 0 sticks 2 points 40000 30000 28000 20000";
    assert_eq!(totals("", two), ["+27.0", "+5.0", "-7.0", "-25.0"]);
    assert_eq!(totals("left=lost", two)[0], "+25.0");
}

#[test]
fn what_a_player_needs() {
    let text = "game Anna Bo Cyd Dee\nstands east 1 counters 1 sticks 1 points 28000 38000 30000 23000\n";
    let told = needs(text.as_bytes(), "Cyd", 1, &[]).expect("there is a game");
    let rows: Vec<Vec<&str>> = told.lines().skip(1).map(|line| line.split(' ').collect()).collect();
    let pay = |row: &[&str], word: &str| row[1 + row.iter().position(|here| *here == word).expect("the word is there")].to_string();
    assert_eq!(rows.iter().map(|row| pay(row, "strictly")).collect::<Vec<_>>(), ["7100", "3600", "7100", "1500/2900"]);
    assert_eq!(rows.iter().map(|row| pay(row, "tie")).collect::<Vec<_>>(), ["7100", "3200", "7100", "1500/2900"]);
}

#[test]
fn ends_of_games() {
    let begin = "game Anna Bo Cyd Dee table=online\nstands south 4 counters 0 sticks 0 points";
    let told = |points: &str, line: &str| answered(&format!("{begin} {points}\n{line}\n"));
    // a win of 1000 by Dee, who has 1500 of the discarder
    assert_eq!(told("27000 25000 20500 27500", "ron Dee from Bo 1.30").last().unwrap(), "stands south 4 counters 1 sticks 0 points 27000 23500 20500 29000");
    assert_eq!(told("26500 25000 20000 28500", "ron Dee from Bo 1.30")[3], "over");
    assert_eq!(told("29000 25000 20000 26000", "ron Bo from Anna 1.30").last().unwrap(), "stands west 1 counters 0 sticks 0 points 28000 26000 20000 26000");
    assert_eq!(told("31000 25000 20000 24000", "ron Bo from Anna 1.30")[3], "over");
    let west = "game Anna Bo Cyd Dee table=online\nstands west 4 counters 0 sticks 0 points 28000 26000 20000 26000\ndraw ready Dee\n";
    assert_eq!(answered(west)[3], "over");
    let backwards = |points: &str| answered(&format!("game Anna Bo Cyd Dee table=online chombo=mangan\nstands east 1 counters 0 sticks 0 points {points}\nchombo Bo\n"))[3].clone();
    assert_eq!(backwards("30000 7900 32100 30000"), "over");
    assert_eq!(backwards("30000 8000 32000 30000"), "stands east 1 counters 0 sticks 0 points 34000 0 34000 32000");
}

/// A win alone changes points as its record line answers.
#[test]
fn a_win_alone_is_paid_as_its_hand() {
    let hands = ["234m567m345p67s99s on=5s", "567m345p67s99s open=ankan:7777z on=5s", "777z23m99p open=pon:555z,pon:666z on=4m"];
    for hand in hands {
        for (how, by) in [("ron Bo from Cyd", "ron"), ("tsumo Bo", "tsumo")] {
            for (dealer, seat) in [(1, "S"), (2, "E"), (3, "N")] {
                let state = format!("south {dealer} counters 2 sticks 3 points 30000 30000 30000 27000");
                let told = changes(&format!("game Anna Bo Cyd Dee\nstands {state}\n{how} {hand}\n"));
                let record = format!("win {hand} by={by} seat={seat} round=S counters=2 sticks=3\n");
                let answer = crate::answer::answers(House::ONE, record.as_bytes());
                let answer = String::from_utf8(answer).expect("answers are plain");
                let gain = answer.split(" gain ").nth(1).and_then(|rest| rest.split_whitespace().next()).expect("a gain");
                assert_eq!(told.split(' ').nth(1), Some(format!("+{gain}").as_str()), "{state} {how} {hand}");
            }
        }
    }
}

/// The words behind the first of a line, where that is this one.
fn behind<'a>(line: &'a str, word: &str) -> Option<&'a str> {
    line.strip_prefix(word)?.strip_prefix(' ')
}

/// The words behind the first line of a row that begins with this word.
fn field<'a>(row: &[&'a str], word: &str) -> Option<&'a str> {
    row.iter().find_map(|line| behind(line, word))
}

/// A row of a deal: the answers of its game.
fn check_deal(name: &str, row: &[&str]) {
    let text = [
        format!("game Anna Bo Cyd Dee {}", field(row, "rules").unwrap_or("")),
        format!("stands {}", field(row, "before").expect("a state before")),
        field(row, "line").expect("a line").into(),
    ];
    let told = answered(&text.join("\n"));
    let mut wanted = Vec::new();
    match field(row, "refused") {
        Some(code) => wanted.push(format!("refused {code}")),
        None => {
            let place = field(row, "before").expect("a state before").split(" points").next().expect("a place");
            let points = told[2].split(" points ").nth(1).expect("points");
            wanted.push(format!("{place} changes {} points {points}", field(row, "changes").expect("changes")));
        }
    }
    match field(row, "after").expect("a state after") {
        "over" => wanted.push("over".into()),
        state => wanted.push(format!("stands {state}")),
    }
    wanted.extend(row.iter().filter(|line| line.starts_with("left ") || line.starts_with("final ")).map(|line| line.to_string()));
    assert_eq!(told[2..], wanted, "{name}");
}

/// A row of what a player needs: who pays, and the two rows of payments.
fn check_need(name: &str, row: &[&str], who: &str) {
    let (player, place) = who.split_once(' ').expect("a player and a place");
    let text = format!("game Anna Bo Cyd Dee {}\nstands {}\n", field(row, "rules").unwrap_or(""), field(row, "before").expect("a state"));
    let told = needs(text.as_bytes(), player, place.parse().expect("a place"), &[]).expect("there is a game");
    let pays = |line: &str| {
        let (how, rest) = line.split_once(" strictly ").expect("what is needed");
        let (strict, tie) = rest.split_once(" tie ").expect("and with ties");
        let first = |values: &str| values.split(' ').next().expect("points").to_string();
        format!("{how} {} {}", first(strict), first(tie))
    };
    let wanted: Vec<&str> = row.iter().filter(|line| line.starts_with("from ") || line.starts_with("tsumo ")).copied().collect();
    assert_eq!(told.lines().skip(1).map(pays).collect::<Vec<_>>(), wanted, "{name}");
}

#[test]
fn worked_deals() {
    let text = include_str!("../../../tests/ledger-rows.txt");
    let lines: Vec<&str> = text.lines().filter(|line| !line.is_empty() && !line.starts_with('#')).collect();
    let rows: Vec<&[&str]> = lines.chunk_by(|_, next| !next.starts_with("row ")).collect();
    assert!(rows.len() >= 20);
    for row in rows {
        match field(row, "need") {
            Some(who) => check_need(row[0], row, who),
            None => check_deal(row[0], row),
        }
    }
}

/// Each block of docs/GAME.md that has answers is a text, with its answers behind `=> `.
#[test]
fn texts_of_the_page() {
    let page = include_str!("../../../docs/GAME.md");
    let blocks: Vec<&str> = page.split("```\n").skip(1).step_by(2).filter(|block| block.contains("\n=> ")).collect();
    assert!(blocks.len() > 15);
    for block in blocks {
        let (wanted, text): (Vec<&str>, Vec<&str>) = block.lines().partition(|line| line.starts_with("=> "));
        let wanted: Vec<&str> = wanted.iter().map(|line| &line[3..]).collect();
        assert_eq!(answered(&text.join("\n")), wanted, "{block}");
    }
}
