//! That an implementation in the process is caught wherever it differs, and how.

use bench::clock;
use compare::blocks::{each_block, Until};
use compare::comparison::{answered, Comparison};
use compare::desk::{answered as answered_pair, Pairs};
use compare::generated::{edge_books, edge_pairs, ordinary_pairs};
use compare::output::takes_small_output;
use compare::overdue::{overdue, Notes};
use compare::side::{told as sides_told, Answered, Desk, OfBook, Side, PLAIN, PROVED, SIDES};
use compare::Named;
use second::copying::{to_new, to_old};
use second::pairs::Pair;
use second::random::Random;
use second::run::run_by;
use second::seen::{Behaviour, Seen};
use second::union::record;
use second::way::Way;
use second::width::Width;
use second::{desk, generate};
use std::collections::BTreeSet;
use std::sync::atomic::{AtomicUsize, Ordering};
use std::sync::Mutex;
use std::time::Duration;

/// The second program in a given way.
fn by(way: Way, book: &[u8], out: &mut [u8]) -> Answered {
    let answer = run_by(book, out, way, &mut Seen::default());
    (answer.number as u8, answer.place)
}

/// What the second program's covering gives.
fn covers(first: &[u8], second: &[u8], width: usize) -> Desk {
    let covered = desk::covers(first, second, width);
    (covered.number, Some(covered.map))
}

/// Which one it keeps.
fn kept(first: &[u8], second: &[u8], width: usize) -> Desk {
    let kept = desk::kept(first, second, width);
    (kept.which, Some(kept.map))
}

/// The numbers of a copy that the second program makes.
fn copied(answer: second::run::Answer) -> Answered {
    (answer.number as u8, answer.place)
}

/// The second program as a side.
const RIGHT: Side = Side {
    name: "the second program once more",
    run: |book, out| by(Way::Right, book, out),
    to_new: |book, out| copied(to_new(book, out)),
    to_old: |book, out| copied(to_old(book, out)),
    covers,
    kept,
};

/// One that runs books in another way.
const fn running(run: OfBook) -> Side {
    Side { run, ..RIGHT }
}

/// Generated books.
fn books(many: usize) -> Vec<Named> {
    let mut random = Random::new(21);
    (0..many)
        .map(|i| (format!("book {i}"), generate::next(&mut random)))
        .collect()
}

/// What is told of a side on generated books.
fn told(side: Side) -> Result<(), String> {
    Comparison::new(&[side]).compare(&books(2000))
}

#[test]
fn a_right_side_passes() {
    assert_eq!(told(RIGHT), Ok(()));
    let mut comparison = Comparison::new(SIDES);
    assert_eq!(comparison.compare(&books(500)), Ok(()));
    assert_eq!(comparison.compared, 500);
    assert!(comparison.in_both_forms > 150);
    let times = comparison.times();
    assert!(times.contains("the proved routines"), "{times}");
    assert!(times.contains("plain Rust"), "{times}");
    let all = "3 sides: the second program, the proved routines, plain Rust";
    assert_eq!(sides_told(SIDES), all);
}

#[test]
fn a_wrong_side_is_caught_on_a_small_book() {
    let old_way = running(|book, out| by(Way::OnePiece, book, out));
    let told = told(old_way).unwrap_err();
    assert!(told.starts_with("DIFFERENCE on book "), "{told}");
    assert!(told.contains("\nquestion r"), "{told}");
}

#[test]
fn a_wrong_number_place_or_byte_is_caught() {
    let place = running(|book, out| match by(Way::Right, book, out) {
        (8, place) => (8, place + 1),
        other => other,
    });
    let number = running(|book, out| match by(Way::Right, book, out) {
        (11, place) => (7, place),
        other => other,
    });
    let count = running(|book, out| {
        let answered = by(Way::Right, book, out);
        if answered.0 == 0 {
            out[2] = out[2].wrapping_add(1);
        }
        answered
    });
    for side in [place, number, count] {
        assert!(told(side).unwrap_err().starts_with("DIFFERENCE"));
    }
}

#[test]
fn a_byte_touched_after_the_total_or_on_a_refusal_is_caught() {
    let after = running(|book, out| {
        let answered = by(Way::Right, book, out);
        if answered.0 == 0 {
            out[answered.1] = 0;
        }
        answered
    });
    let last = running(|book, out| {
        out[out.len() - 1] = 0;
        by(Way::Right, book, out)
    });
    let refused = running(|book, out| {
        let answered = by(Way::Right, book, out);
        if answered.0 > 7 {
            out[2000] = 0;
        }
        answered
    });
    for (side, byte) in [
        (after, ""),
        (last, ""),
        (refused, "byte 2000 of the output is 0"),
    ] {
        let told = told(side).unwrap_err();
        assert!(
            told.starts_with("DIFFERENCE") && told.contains(byte),
            "{told}"
        );
    }
}

#[test]
fn a_side_that_takes_a_small_output_is_caught() {
    let (_, book) = books(1).remove(0);
    let judges_late = running(|book, out| match out.len() < 2000 {
        true => by(Way::Right, book, out),
        false => (0, 8),
    });
    let mut seen = Seen::default();
    assert_eq!(takes_small_output(&book, SIDES, &mut seen), None);
    let taken = takes_small_output(&book, &[judges_late], &mut seen);
    assert_eq!(taken, Some(RIGHT.name));
}

#[test]
fn a_wrong_copy_is_caught() {
    let no_thirteen = Side {
        to_old: |book, out| match copied(to_old(book, out)) {
            (13, _) => copied(to_new(book, out)),
            other => other,
        },
        ..RIGHT
    };
    let wide_last = Side {
        to_old: |book, out| match copied(to_old(book, out)) {
            (13, place) if book[place] < 7 => (13, place + 1),
            other => other,
        },
        ..RIGHT
    };
    let used = Side {
        to_new: |book, out| {
            let answered = copied(to_new(book, out));
            if answered.0 == 0 {
                out[answered.1 - 1] = 0;
            }
            answered
        },
        ..RIGHT
    };
    let touched = Side {
        to_new: |book, out| {
            let answered = copied(to_new(book, out));
            if answered.0 > 1 {
                out[0] = 1;
            }
            answered
        },
        ..RIGHT
    };
    for side in [no_thirteen, wide_last, used, touched] {
        assert!(told(side).unwrap_err().starts_with("DIFFERENCE"));
    }
}

#[test]
fn another_room_for_a_copy_is_caught() {
    let exact_room = Side {
        to_old: |book, out| {
            let mut copy = [0; 2003];
            let (number, place) = copied(to_old(book, &mut copy));
            match (number, out.get_mut(..place)) {
                (0, None) => return (1, 0),
                (0, Some(out)) => out.copy_from_slice(&copy[..place]),
                _ => (),
            }
            (number, place)
        },
        ..RIGHT
    };
    let more_room = Side {
        to_old: |book, out| match out.len() < 2004 {
            true => (1, 0),
            false => copied(to_old(book, out)),
        },
        ..RIGHT
    };
    for side in [exact_room, more_room] {
        assert!(told(side).unwrap_err().starts_with("DIFFERENCE"));
    }
}

#[test]
fn a_side_that_runs_the_new_form_otherwise_is_caught() {
    let as_old = running(|book, out| {
        let mut old = vec![0; 2003];
        match copied(to_old(book, &mut old)) {
            (0, length) => by(Way::Right, &old[..length], out),
            _ => by(Way::Right, book, out),
        }
    });
    assert!(told(as_old).unwrap_err().starts_with("DIFFERENCE"));
}

/// What is told of a side on generated pairs.
fn told_of_pairs(side: Side) -> Result<(), String> {
    let (sides, mut pairs) = ([side], ordinary_pairs(22, 2000).into_iter());
    let mut comparison = Pairs::limited(&sides, None);
    pairs.try_for_each(|pair: Pair| comparison.compare(&pair))
}

#[test]
fn a_wrong_number_of_the_desk_is_caught() {
    assert_eq!(told_of_pairs(RIGHT), Ok(()));
    let turned = Side {
        covers: |first, second, width| covers(second, first, width),
        ..RIGHT
    };
    let second_kept = Side {
        kept: |first, second, width| match kept(first, second, width) {
            (1, map) if covers(second, first, width).0 == 1 => (2, map),
            other => other,
        },
        ..RIGHT
    };
    let without_map = Side {
        covers: |first, second, width| (covers(second, first, width).0, None),
        ..RIGHT
    };
    let cut_width = Side {
        covers: |first, second, width| covers(first, second, width & 255),
        ..RIGHT
    };
    let any_width = Side {
        kept: |first, second, width| kept(first, second, if width < 6 { 4 } else { 6 }),
        ..RIGHT
    };
    for side in [turned, second_kept, without_map, cut_width, any_width] {
        let told = told_of_pairs(side).unwrap_err();
        assert!(told.starts_with("DIFFERENCE\nwidth "), "{told}");
    }
}

/// A record's atoms from the last to the first, if it is sound; else itself.
fn from_behind(bytes: &[u8], width: usize) -> Vec<u8> {
    let question = desk::question_of(bytes, width).zip(Width::of(width));
    question.map_or(bytes.to_vec(), |(question, width)| {
        record(&question.turned_round(), width)
    })
}

#[test]
fn a_wrong_map_is_caught() {
    let last_map = Side {
        covers: |first, second, width| covers(first, &from_behind(second, width), width),
        ..RIGHT
    };
    let last_atom_first = Side {
        covers: |first, second, width| covers(&from_behind(first, width), second, width),
        ..RIGHT
    };
    let others_map = Side {
        kept: |first, second, width| {
            let map = covers(first, second, width).1;
            (kept(first, second, width).0, map)
        },
        ..RIGHT
    };
    let untouched = Side {
        kept: |first, second, width| match kept(first, second, width) {
            (0, _) => (0, Some([0; 66])),
            other => other,
        },
        ..RIGHT
    };
    for side in [last_map, last_atom_first, others_map, untouched] {
        let told = told_of_pairs(side).unwrap_err();
        assert!(told.contains(", map ["), "{told}");
    }
}

#[test]
fn the_proved_routines_give_maps_and_plain_rust_gives_none() {
    for pair in ordinary_pairs(23, 200) {
        let (first, second, width) = (&pair.first[..], &pair.second[..], pair.width);
        let (ask, keep) = (PROVED.covers, PROVED.kept);
        assert_eq!(ask(first, second, width), covers(first, second, width));
        assert_eq!(keep(first, second, width), kept(first, second, width));
        assert_eq!((PLAIN.covers)(first, second, width).1, None);
        assert_eq!((PLAIN.kept)(first, second, width).1, None);
    }
}

/// Edge books on which the second program gives up, or those on which it does not.
fn edges(given_up: bool, many: usize) -> Vec<Named> {
    let mut books = edge_books(31, 40);
    books.retain(|(_, book)| answered(book) != given_up);
    books.truncate(many);
    books
}

#[test]
fn where_the_second_program_gives_up_the_others_are_compared() {
    let sides = [PLAIN, PLAIN];
    let mut comparison = Comparison::new(&sides);
    assert_eq!(comparison.compare_edges(&edges(true, 9)), Ok(()));
    assert_eq!(comparison.compare_edges(&edges(false, 7)), Ok(()));
    assert_eq!((comparison.compared, comparison.edges), (16, 16));
    assert_eq!(comparison.passed_over, 9);
    let wrong = Side {
        name: "a wrong one",
        run: |book, out| match (PLAIN.run)(book, out) {
            (0, place) => {
                out[2] = out[2].wrapping_add(1);
                (0, place)
            }
            (number, place) => (number, place + 1),
        },
        ..PLAIN
    };
    for given_up in [true, false] {
        let sides = [PLAIN, wrong];
        let told = Comparison::new(&sides).compare_edges(&edges(given_up, 1));
        let told = told.unwrap_err();
        assert!(told.starts_with("DIFFERENCE on edge book "), "{told}");
        assert!(told.contains("\na wrong one: "), "{told}");
        assert_eq!(told.contains("\nplain Rust: "), given_up, "{told}");
    }
}

#[test]
fn what_the_second_program_met_before_it_gave_up_does_not_count() {
    let sides = [PLAIN];
    let mut comparison = Comparison::new(&sides);
    comparison.compare_edges(&edges(true, 5)).unwrap();
    assert_eq!(comparison.seen.count(Behaviour::OneToOne), 0);
    assert!(comparison.seen.count(Behaviour::CopiedToNew) > 0);
}

/// Uses so much processor time: that is what is limited.
fn busy(millis: u64) {
    let began = clock::used();
    while clock::used() - began < millis * 1_000_000 {}
}

#[test]
fn a_slow_side_is_caught_if_it_is_the_first() {
    let slow = Side {
        run: |book, out| {
            busy(60);
            (PLAIN.run)(book, out)
        },
        ..PLAIN
    };
    // Within the limit, and longest on the first book: without the wait its other form takes as
    // long.
    static RUNS: AtomicUsize = AtomicUsize::new(0);
    let steady = Side {
        run: |book, out| {
            if RUNS.fetch_add(1, Ordering::Relaxed) == 0 {
                busy(8);
            }
            (PLAIN.run)(book, out)
        },
        ..PLAIN
    };
    let most = Some(Duration::from_millis(20));
    let edges = edges(true, 1);
    let told = Comparison::limited(&[slow, PLAIN], most).compare_edges(&edges);
    let told = told.unwrap_err();
    assert!(told.starts_with("TOO SLOW: 0.0"), "{told}");
    assert!(told.contains("plain Rust on edge book "), "{told}");
    let sides = [steady, slow];
    let mut patient = Comparison::limited(&sides, most);
    assert_eq!(patient.compare_edges(&edges), Ok(()));
    assert_eq!(patient.longest.on(), Some(&edges[0].0));
    // of the first side alone: the slow one takes longer than that
    assert!(patient.longest.seconds() < 0.02);
}

#[test]
fn a_call_that_does_not_end_is_told_of_while_it_is_under_way() {
    let (soon, late) = (Duration::from_millis(1), Duration::from_secs(600));
    let notes = Notes::default();
    let told = notes.during(Box::new(|| "the call of this test".into()), || {
        std::thread::sleep(Duration::from_millis(20));
        assert_eq!(overdue(late), None);
        overdue(soon)
    });
    // Another test's call may be under way too.
    assert!(told.is_some());
    assert_ne!(overdue(soon), Some("the call of this test".into()));
}

#[test]
fn edge_pairs_are_compared_though_the_second_program_gives_up() {
    let pairs = edge_pairs(32, 300);
    let given_up = pairs.iter().filter(|pair| !answered_pair(pair)).count();
    assert!(given_up > 20 && given_up < 200, "{given_up}");
    let mut comparison = Pairs::limited(SIDES, None);
    let mut all = pairs.iter();
    assert_eq!(
        all.try_for_each(|pair| comparison.compare_edge(pair)),
        Ok(())
    );
    assert_eq!(comparison.compared, 300);
    // It is asked more here: whether the first covers, and then which is kept.
    assert!(comparison.passed_over <= given_up);
    let turned = Side {
        covers: |first, second, width| (PLAIN.covers)(second, first, width),
        ..PLAIN
    };
    let sides = [PROVED, turned];
    let mut wrong = Pairs::limited(&sides, None);
    let mut hard = pairs.iter().filter(|pair| !answered_pair(pair));
    let told = hard.try_for_each(|pair| wrong.compare_edge(pair));
    let told = told.unwrap_err();
    assert!(told.contains("\nthe proved routines: covers"), "{told}");
}

#[test]
fn blocks_have_seeds_of_their_own_whatever_the_threads() {
    let taken = |threads| {
        let seeds = Mutex::new(BTreeSet::new());
        let gathered = each_block(
            (7, Until::Count(1700), threads),
            || 0,
            |count, seed, many| {
                assert!(seeds.lock().unwrap().insert((seed, many)));
                *count += many;
                Ok(())
            },
        );
        let gathered: Vec<usize> = gathered.unwrap();
        assert_eq!((gathered.len(), gathered.iter().sum()), (threads, 1700));
        seeds.into_inner().unwrap()
    };
    assert!(taken(1)
        .into_iter()
        .eq([(7, 500), (8, 500), (9, 500), (10, 200)]));
    assert_eq!(taken(1), taken(3));
    let failing = each_block(
        (0, Until::Count(9000), 2),
        || (),
        |_, seed, _| match seed {
            3 => Err("the fourth".into()),
            _ => Ok(()),
        },
    );
    assert_eq!(failing, Err("the fourth".into()));
}
