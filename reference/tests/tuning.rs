//! Request [8] of document 02: every call that receives the record of numbers, under other numbers than document 01's, against the Rust with
//! the same record; and the record's own test.
//!
//! Of each input the Rust is asked too what it answers under document 01's numbers, and with one number of the record put back to document 01's.
//! Where that is another answer, a port that took no notice of the record, or of that number, would differ.

use eml::Stop;
use reference::case::{Case, EXISTS, FORALL, Limited, TOLERANCES, UNTOUCHED, listed};
use reference::compare::{Tally, hex, say, text};
use reference::generate::{self, Shape, Temper};
use reference::house;
use reference::port::{self, bits};
use reference::settings::Settings;
use reference::smt::helpers::count_constraint_vars;
use reference::smt::interval::PropResult;
use reference::splitmix::SplitMix64;
use reference::standins::{next_down, next_up};
use std::fmt::Debug;

/// How many answers tell the settings: they are others under document 01's numbers, and with one number put back.
#[derive(Default)]
struct Told {
    answers: u64,
    usual: u64,
    /// By the rounds, the equality tolerance, the slack and the clamp.
    by: [u64; 4],
}

impl Told {
    /// `ask` is what the Rust answers under a record, and `theirs` what it answered under these settings.
    fn add<T: Debug>(&mut self, settings: &Settings, theirs: &T, ask: impl Fn(&Settings) -> T) {
        let other = |settings: &Settings| u64::from(text(&ask(settings)) != text(theirs));
        let usual = Settings::default();
        let one_put_back = [
            Settings {
                rounds: usual.rounds,
                ..*settings
            },
            Settings {
                equality: usual.equality,
                ..*settings
            },
            Settings {
                slack: usual.slack,
                ..*settings
            },
            Settings {
                clamp: usual.clamp,
                ..*settings
            },
        ];
        self.answers += 1;
        self.usual += other(&usual);
        for (count, settings) in self.by.iter_mut().zip(&one_put_back) {
            *count += other(settings);
        }
    }

    /// Prints the counts. A number that the call uses must tell at least so many, and one that it does not use, whose floor is 0, none.
    fn done(self, name: &str, floors: [u64; 4]) {
        let Self { answers, usual, by } = self;
        say(&format!(
            "{name}: {answers} compared under other settings, all equal; {usual} are others under document 01's; by rounds, equality, slack, clamp {by:?}"
        ));
        assert!(usual >= 1_000);
        for (count, floor) in by.into_iter().zip(floors) {
            assert!(count >= floor && (floor > 0 || count == 0), "{name}");
        }
    }
}

/// Mostly a small problem, so that many are compared, and one in ten such that the number of rounds matters.
fn case(rng: &mut SplitMix64) -> Case {
    let shape = match rng.below(100) {
        0 => Shape::medium(rng),
        1..=60 => Shape::narrowing(rng),
        _ => Shape::small(rng),
    };
    if rng.one_in(10) {
        Case::new(generate::slow_problem(rng), 1, shape.temper)
    } else {
        Case::drawn(rng, &shape)
    }
}

#[test]
fn solving() {
    let mut rng = SplitMix64::new(201);
    let (mut told, mut stops) = (Told::default(), [0_u64; 5]);
    for _ in 0..100_000 {
        let c = case(&mut rng);
        let settings = generate::settings(&mut rng);
        let limit = rng.pick(&[0, 1, 2, 5, 40]);
        let tolerance = rng.pick(&TOLERANCES);
        let theirs = c.compare_solve(limit, tolerance, &settings);
        stops[theirs.stop as usize] += 1;
        told.add(&settings, &theirs, |s| c.solve(limit, tolerance, s));
    }
    say(&format!(
        "solve under other settings: assignment, conflict, tolerance, limit, unsatisfied {stops:?}"
    ));
    assert!(stops.iter().all(|&n| n >= 1_000));
    told.done("solve", [1_000; 4]);
}

#[test]
fn narrowing() {
    let mut rng = SplitMix64::new(202);
    let (mut told, mut answers, mut written) = (Told::default(), [0_u64; 3], 0_u64);
    for _ in 0..100_000 {
        let c = case(&mut rng);
        let settings = generate::settings(&mut rng);
        let boxes = generate::boxes_about(&mut rng, &c.parts.bounds, c.temper);
        let theirs = c.compare_propagate(&boxes, &settings);
        answers[theirs.0 as usize] += 1;
        let moved = theirs.1 != bits(&listed(&boxes));
        written += u64::from(theirs.0 == PropResult::Conflict && moved);
        told.add(&settings, &theirs, |s| c.propagate(&boxes, s));
    }
    let [changed, stable, conflict] = answers;
    say(&format!(
        "propagate under other settings: Changed {changed}, Stable {stable}, Conflict {conflict}, of which {written} had written"
    ));
    assert!(answers.iter().all(|&n| n >= 5_000) && written >= 500);
    told.done("propagate", [1_000, 0, 1_000, 0]);
}

#[test]
fn points() {
    let mut rng = SplitMix64::new(203);
    let [mut evaluated, mut checked, mut measured] = [(); 3].map(|()| Told::default());
    let mut passed = 0_u64;
    while checked.answers < 100_000 || evaluated.answers < 100_000 {
        let c = case(&mut rng);
        let settings = generate::settings(&mut rng);
        let point = generate::point_about(&mut rng, c.variables);

        if let Some(k) = c.any_node(&mut rng) {
            let theirs = c.compare_eval_real(k, &point, &settings);
            evaluated.add(&settings, &theirs, |s| c.eval_real(k, &point, s));
        }

        let theirs = c.compare_check(&point, &settings);
        passed += u64::from(theirs);
        checked.add(&settings, &theirs, |s| c.check(&point, s));

        let theirs = c.compare_residual(&point, &settings);
        measured.add(&settings, &theirs, |s| c.residual(&point, s));
    }
    let failed = checked.answers - passed;
    say(&format!(
        "check under other settings: {passed} passed, {failed} did not"
    ));
    assert!(passed >= 10_000 && failed >= 10_000);
    evaluated.done("eval_real", [0, 0, 0, 1_000]);
    checked.done("check", [0, 500, 500, 500]);
    measured.done("residual", [0, 0, 0, 1_000]);
}

#[test]
fn decisions() {
    let mut rng = SplitMix64::new(204);
    let [mut all, mut some] = [(); 2].map(|()| Told::default());
    for _ in 0..50_000 {
        let c = case(&mut rng);
        let settings = generate::settings(&mut rng);
        let question = c.question(&mut rng);
        for (told, decision) in [(&mut all, FORALL), (&mut some, EXISTS)] {
            let theirs = c.compare_decide(decision, &question, &settings);
            told.add(&settings, &theirs, |s| c.decide(decision, &question, s));
        }
    }
    all.done("decide_forall", [50; 4]);
    some.done("decide_exists", [0, 150, 150, 150]);
}

/// The number of the first test that fails, or 0. A test is whether it fails, and its number.
fn first(tests: &[(bool, u8)]) -> u8 {
    let failing = tests.iter().find(|(fails, _)| *fails);
    failing.map_or(0, |&(_, number)| number)
}

/// Damaged files, settings, limits, tolerances and short outputs.
#[test]
fn refusals_of_files() {
    let mut rng = SplitMix64::new(205);
    let mut tally = Tally::new("refusals of solve on a file with settings");
    for _ in 0..100_000 {
        let file = generate::any_file(&mut rng);
        let settings = generate::any_settings(&mut rng);
        let limit = rng.pick(&[0, 0, 1, 1_000_000, 1_000_001, usize::MAX]);
        let tolerance = rng.pick(&[f64::INFINITY, f64::INFINITY, f64::NAN]);
        let room = rng.pick(&[0, 1, 16]);
        let read = house::read_file(&file);
        let variables = read
            .as_ref()
            .map_or(0, |p| count_constraint_vars(&p.constraint));
        let of_file = read.err().unwrap_or(0);
        let number = first(&[
            (of_file != 0, of_file),
            (settings.refusal() != 0, 14),
            (limit > 1_000_000 || tolerance.is_nan(), 8),
            (variables > room, 10),
        ]);
        let ours = port::solve_file(&file, limit, tolerance, &settings, room);
        assert_eq!(ours.err().unwrap_or(0), number, "{settings:?}");
        tally.add(number);
    }
    tally.done(&[0, 1, 2, 3, 4, 5, 6, 7, 8, 10, 14], 500);
}

/// Damaged records, settings, and whatever else a call is refused for.
#[test]
fn refusals_of_records() {
    let mut rng = SplitMix64::new(206);
    let [
        mut solves,
        mut lists,
        mut intervals,
        mut values,
        mut points,
        mut decisions,
    ] = [
        "refusals of solve on records with settings",
        "refusals of propagate with settings",
        "refusals of propagate on intervals with settings",
        "refusals of eval_real with settings",
        "refusals of check and residual with settings",
        "refusals of a decision with settings",
    ]
    .map(Tally::new);
    for _ in 0..60_000 {
        let (nodes, constraints) = generate::any_records(&mut rng);
        let read = house::read_records(&nodes, &constraints);
        let variables = read
            .as_ref()
            .map_or(0, |p| count_constraint_vars(&p.constraint));
        let records = read.err().unwrap_or(0);
        let settings = generate::any_settings(&mut rng);
        // What every call on records tests first.
        let records = (records != 0, records);
        let parameter = (settings.refusal() != 0, 14);

        let boxes = generate::any_boxes(&mut rng);
        let (mut lo, mut hi) = port::ends(&boxes);
        if rng.one_in(20) {
            hi.push(1.0);
        }
        let unsound = boxes.len() > 16 || !boxes.iter().all(|&(a, b)| house::is_sound(a, b));
        let of_ends = (unsound || lo.len() != hi.len(), 9);
        let limit = rng.pick(&[0, 1, 1, 1_000_001]);
        let tolerance = rng.pick(&[f64::INFINITY, f64::INFINITY, f64::INFINITY, f64::NAN]);
        let room = rng.pick(&[0, 1, 16]);
        let number = first(&[
            records,
            parameter,
            (limit > 1_000_000 || tolerance.is_nan(), 8),
            of_ends,
            (variables > room, 10),
        ]);
        let ours = port::solve(
            &nodes,
            &constraints,
            (&lo, &hi),
            limit,
            tolerance,
            &settings,
            room,
        );
        assert_eq!(ours.err().unwrap_or(0), number, "{settings:?}");
        solves.add(number);

        let number = first(&[records, parameter, of_ends]);
        let before = (hex(&lo), hex(&hi));
        let ours = port::propagate(&nodes, &constraints, &settings, &mut lo, &mut hi);
        assert_eq!(ours.err().unwrap_or(0), number, "{settings:?}");
        assert!(number == 0 || before == (hex(&lo), hex(&hi)));
        lists.add(number);

        let number = first(&[records, parameter, (unsound, 9)]);
        let mut list = listed(&boxes);
        let before = bits(&list);
        let ours = port::propagate_intervals(&nodes, &constraints, &settings, &mut list);
        assert_eq!(ours.err().unwrap_or(0), number, "{settings:?}");
        assert!(number == 0 || before == bits(&list));
        intervals.add(number);

        let length = rng.pick(&[0, 1, 2, 15, 16, 17, 18]);
        let point = generate::point(&mut rng, length);
        let long = (length > 16, 9);
        let node = rng.below(nodes.len() / 16 + 2);
        let list = house::read_nodes(&nodes);
        let count = list.as_ref().map_or(0, Vec::len);
        let list = list.err().unwrap_or(0);
        let number = first(&[(list != 0, list), (node >= count, 3), parameter, long]);
        let ours = port::eval_real(&nodes, node, &point, &settings);
        assert_eq!(ours.err().unwrap_or(0), number, "{settings:?}");
        values.add(number);

        let number = first(&[records, parameter, long]);
        let ours = port::check(&nodes, &constraints, &point, &settings);
        assert_eq!(ours.err().unwrap_or(0), number, "{settings:?}");
        let ours = port::residual(&nodes, &constraints, &point, &settings);
        assert_eq!(ours.err().unwrap_or(0), number, "{settings:?}");
        points.add(number);

        let n = rng.pick(&[0, 1, 2, 15, 16, 17, usize::MAX]);
        let var = generate::variable_about(&mut rng, n.min(16));
        let range = if rng.one_in(4) {
            generate::unsound_range(&mut rng)
        } else {
            generate::range(&mut rng, Temper::Wild)
        };
        let room = rng.pick(&[0, 1, 16, 20]);
        let number = first(&[
            records,
            parameter,
            (n > 16 || !house::is_sound(range.0, range.1), 9),
            (n > room, 10),
        ]);
        for decide in [port::decide_forall, port::decide_exists] {
            let mut point = vec![UNTOUCHED; room];
            let ours = decide(&nodes, &constraints, var, range, n, &settings, &mut point);
            assert_eq!(ours.err().unwrap_or(0), number, "{settings:?}");
            assert!(number == 0 || point.iter().all(|&x| x == UNTOUCHED));
            decisions.add(number);
        }
    }
    solves.done(&[0, 2, 3, 4, 5, 6, 7, 8, 9, 10, 14], 200);
    for tally in [lists, intervals, points] {
        tally.done(&[0, 2, 3, 4, 5, 6, 7, 9, 14], 200);
    }
    values.done(&[0, 2, 3, 4, 9, 14], 200);
    decisions.done(&[0, 2, 3, 4, 5, 6, 7, 9, 10, 14], 200);
}

/// Every edge of each number with every edge of the others, and random records: the same number with either value of the flag.
#[test]
fn tests_of_settings() {
    let mut tally = Tally::new("eml_test_settings");
    let mut test = |settings: Settings| {
        let number = settings.refusal();
        let ours = port::test_settings(&settings);
        assert_eq!(ours.err().unwrap_or(0), number, "{settings:?}");
        let other = settings.with_strict(!settings.strict);
        assert_eq!(port::test_settings(&other).err().unwrap_or(0), number);
        let Settings {
            rounds,
            equality,
            slack,
            clamp,
            ..
        } = settings;
        let made = eml::Settings::new(rounds, equality, slack, clamp);
        let off = settings.with_strict(false).to_port();
        match made {
            Ok(made) => assert_eq!((made, 0), (off, number)),
            Err(refusal) => assert_eq!(refusal.number(), number, "{settings:?}"),
        }
        tally.add(number);
    };
    let least = f64::from_bits(1);
    let signs = |list: &[f64]| [list, &list.iter().map(|x| -x).collect::<Vec<_>>()].concat();
    let ends = [
        0.0,
        least,
        f64::INFINITY,
        f64::NAN,
        f64::from_bits(0x7FF0_0000_0000_0001),
    ];
    let equalities = [least, 2.0 * least, 1e-8, f64::MAX].map(|e| [next_down(e), e, next_up(e)]);
    let clamps = [1.0, 709.0].map(|c| [next_down(c), c, next_up(c)]);
    let equalities = signs(&[&ends[..], &equalities.concat()].concat());
    let clamps = signs(&[&ends[..], &clamps.concat()].concat());
    for &equality in &equalities {
        let near = [next_down(equality), equality, next_up(equality), 1e-12];
        for slack in signs(&[&ends[..], &near].concat()) {
            for &clamp in &clamps {
                for rounds in [0, 1, 2, 99, 100, 101, 256, (1 << 32) + 20, usize::MAX] {
                    test(Settings {
                        rounds,
                        equality,
                        slack,
                        clamp,
                        strict: false,
                    });
                }
            }
        }
    }
    let mut rng = SplitMix64::new(207);
    for _ in 0..1_000_000 {
        test(generate::any_settings(&mut rng));
    }
    tally.done(&[0, 14], 100_000);
}

/// The library's own numbers are those that were written from document 01.
#[test]
fn usual_settings() {
    let usual = Settings::default();
    assert_eq!(eml::calls::usual_settings(), usual.to_port());
    assert_eq!(eml::Settings::default(), usual.to_port());
    assert_eq!(usual.refusal(), 0);
}

/// Under other settings too a limit alters no answer but "limit".
#[test]
fn limits() {
    let mut rng = SplitMix64::new(208);
    let mut seen = Limited::default();
    while seen.problems < 2_000 {
        let c = case(&mut rng);
        let settings = generate::settings(&mut rng);
        let tolerance = rng.pick(&TOLERANCES);
        // Of those that stop at once there are enough among the others.
        if c.port(1, tolerance, &settings).stop != Stop::Limit && !rng.one_in(20) {
            continue;
        }
        c.compare_limits(tolerance, &settings, &mut seen);
    }
    seen.say("under other settings");
    assert!(seen.cut >= 1_000 && seen.assigned >= 500);
    assert!(seen.stops[..4].iter().all(|&n| n >= 50));
}
