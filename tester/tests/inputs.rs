//! Inputs of the calls as text: what is written is read back, and what is no
//! input is refused.

mod common;
use common::{automaton, clock, constant, edge, guard, Equal, NotEqual};

use tzelmaruf_tester::automaton::{Guard, Update};
use tzelmaruf_tester::call::{Call, Input};
use tzelmaruf_tester::format::encode_table;
use tzelmaruf_tester::generate::{seed, Random};
use tzelmaruf_tester::tally::{Position, Tally};

#[test]
fn text_is_read_back() {
    let seed = seed(20_601);
    println!("seed {seed}");
    for case in 0..2_000 {
        for call in Call::ALL {
            let input = Input::random(*call, &mut Random::of_case(seed, case));
            let text = input.text();
            assert_eq!(Input::from_text(&text), Ok(input), "{text}");
        }
    }
}

#[test]
fn other_text_is_refused() {
    let good = Input::random(Call::Following, &mut Random::new(1)).text();
    let wrong = [
        String::new(),
        good.replace("call following", "call nobody"),
        good.replace("table ", "stool "),
        good.replace("table 5441", "table 544"),
        good.replace("table 5441", "table +441"),
        good.replace("number ", "number x"),
        good.replace("waiting 0 ", "waiting 0"),
        good.replace("waiting 0 ", "waiting -1 "),
    ];
    for text in wrong {
        assert!(Input::from_text(&text).is_err(), "{text}");
    }
}

/// Nothing is missing only if each number came, and at each place it can have.
#[test]
fn gaps_are_named() {
    let mut tally = Tally::default();
    tally.count(0, Position::First);
    tally.count(3, Position::First);
    tally.count(3, Position::Last);
    let gaps = tally.gaps(&[0, 3, 4], &[3]);
    assert_eq!(gaps, ["4", "3 at the middle place"]);
    tally.count(3, Position::Middle);
    tally.count(4, Position::First);
    assert!(tally.gaps(&[0, 3, 4], &[3]).is_empty());
}

/// The long run counts the tables with '≠' by this; one that cannot be read is none of them.
#[test]
fn not_equal_is_found_in_tables() {
    let has = |guards: &[Guard], update: Update, cut: usize| {
        let step = edge(0, 0, guards, &[constant(Equal, 0), update]);
        let mut table = encode_table(&automaton(&[1, 1], &[false], vec![step]));
        table.truncate(table.len() - cut);
        let mut input = Input::random(Call::Admission, &mut Random::new(1));
        input.table = table;
        input.has_not_equal()
    };
    assert!(has(&[guard(1, NotEqual, 0)], Update::Keep, 0));
    assert!(has(&[], constant(NotEqual, 0), 0));
    assert!(has(&[], clock(NotEqual, 0, 0), 0));
    assert!(!has(&[guard(1, Equal, 0)], clock(Equal, 0, 0), 0));
    assert!(!has(&[], constant(NotEqual, 0), 1));
}
