//! Searches compared with all calls of the independent model, on small trees.
use super::goal::Goal;
use super::is_one_sandbox;
use super::states::{Ended, States};
use crate::brute::{after_one_call, held, model_of, places, some_of, tree, MOVING};
use crate::play::play;
use crate::scenario::parse;
use model::state::Model;
use random::Random;
use skeinrabbit::{Rights, Tables, Thread};
use std::collections::BTreeSet;

/// Two threads that cannot write everywhere: the first moves, the second writes somewhere; each has a layer of its own, or the
/// second one below the first's.
fn policy(random: &mut Random) -> String {
    let mut text = tree(random);
    text.push_str("create main /c directory\nset_no_new_privs main\n");
    let above = random.pick(&["main", "main", "main", "t1"]);
    for (thread, above, percent) in [("t1", "main", 60), ("t2", above, 50)] {
        let mut handled = some_of(random, &MOVING, 20);
        handled.extend(["refer", "write_file"]);
        let masks = handled.join("+");
        text.push_str(&format!("create_ruleset fs={masks} -> {thread}\n"));
        if thread == "t1" {
            handled.pop();
        }
        for place in ["/a", "/b", "/a/b", "/c"] {
            let rights = some_of(random, &handled, percent).join("+");
            // Not every tree has each of the places, and a file does not take all rights.
            text.push_str(&format!("add_path_rule {thread} {place} {rights} => any\n"));
        }
        text.push_str(&format!(
            "clone {above} -> {thread}\nrestrict {thread} {thread}\n"
        ));
    }
    text
}

fn tables(text: &str) -> Tables {
    let scenario = parse(text.as_bytes()).expect("a scenario");
    let play = play(&scenario);
    assert!(play.is_as_expected(), "{text}");
    play.player.tables
}

/// The fewest calls of the model that lead to a right that no thread had, if there are at most so many.
fn fewest(start: &Model, threads: &[u64], depth: usize) -> Option<usize> {
    let base = held(start, threads);
    let gains = |model: &Model| {
        let now = held(model, threads);
        let mut old = base
            .iter()
            .filter_map(|(object, base)| Some((base, now.get(object)?)));
        old.any(|(base, now)| now & !base != 0)
    };
    let mut level = vec![start.clone()];
    let mut seen = BTreeSet::from([places(start)]);
    for done in 1..=depth {
        let mut next = Vec::new();
        for model in level
            .iter()
            .flat_map(|model| after_one_call(model, threads))
        {
            if gains(&model) {
                return Some(done);
            }
            if seen.insert(places(&model)) {
                next.push(model);
            }
        }
        level = next;
    }
    None
}

/// What a search says: the number of calls, if it found some.
fn searched(tables: &Tables, threads: &[Thread], depth: usize) -> Option<usize> {
    let goal = Goal::of(tables, threads, &[], Rights::ALL);
    match States::new(tables, threads).search(&goal, depth, 1_000_000) {
        Ended::Found(steps) => Some(steps.len()),
        Ended::None { .. } | Ended::Exhausted { .. } => None,
        Ended::Undecided { .. } => panic!("few states"),
    }
}

/// Of many small policies a search finds as few calls as all calls of the model do, and none where these find none. What one
/// sandbox is asked about finds nothing.
#[test]
fn a_search_finds_what_all_calls_find() {
    const DEPTH: usize = 2;
    let mut random = Random::new(24);
    let mut found = [0; DEPTH + 1];
    for _ in 0..100 {
        let text = policy(&mut random);
        let tables = tables(&text);
        let both = [Thread::new(1), Thread::new(2)];
        let expected = fewest(&model_of(&tables), &[1, 2], DEPTH);
        assert_eq!(searched(&tables, &both, DEPTH), expected, "{text}");
        assert!(
            expected.is_none() || !is_one_sandbox(&tables, &both),
            "{text}"
        );
        found[expected.unwrap_or(0)] += 1;
        for one in both {
            assert_eq!(searched(&tables, &[one], DEPTH), None, "{text}");
        }
    }
    // Each answer is met, so that the test looks at what it says.
    let [none, one, two] = found;
    assert!(none > 20 && one > 10 && two > 0, "{found:?}");
}

/// A directory that is made, filled and carried gets a file to where no file may be made: three calls, and fewer are not enough.
#[test]
fn a_new_directory_may_carry_a_file() {
    let text = "\
create main /from directory
create main /to directory
create main /from/x regular
create_ruleset fs=make_reg+write_file+refer -> moving
add_path_rule moving /from make_reg+refer
add_path_rule moving /to refer
create_ruleset fs=write_file+make_dir+remove_file+make_reg+refer -> writing
add_path_rule writing /to write_file
set_no_new_privs main
clone main -> t1
restrict t1 moving
clone main -> t2
restrict t2 writing
";
    let tables = tables(text);
    let both = [Thread::new(1), Thread::new(2)];
    assert_eq!(searched(&tables, &both, 2), None);
    assert_eq!(searched(&tables, &both, 3), Some(3));
    assert_eq!(fewest(&model_of(&tables), &[1, 2], 3), Some(3));
}

/// Names that are taken or as long as can be do not keep a search from moving something.
#[test]
fn a_free_name_is_always_found() {
    let long = "n".repeat(48);
    let text = format!(
        "\
create main /a directory
create main /b directory
create main /a/{long} regular
create main /b/{long} regular
create_ruleset fs=write_file+refer -> moving
add_path_rule moving /a refer
add_path_rule moving /b refer
create_ruleset fs=write_file+make_reg+remove_file+refer -> writing
add_path_rule writing /b write_file
set_no_new_privs main
clone main -> t1
restrict t1 moving
clone main -> t2
restrict t2 writing
"
    );
    let tables = tables(&text);
    let both = [Thread::new(1), Thread::new(2)];
    assert_eq!(searched(&tables, &both, 1), Some(1));
}
