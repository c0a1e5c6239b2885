//! Requests W4 and W7: policy files. The answers are written down from the papers; the model and the proved core must both
//! give them.

use model::call::Broker;
use model::policy::files::{
    field, fill_to, group, nested, opening, path_rule, port_rule, worked_tree,
};
use model::policy::{File, Wanted};
use model::proved::Both;
use model::refusal::Errno::{self, *};
use model::state::Model;
use model::tables::{encode, Table, Tables};

const READ: u64 = 1 << 2;
const WRITE: u64 = 1 << 1;
const BIND: u64 = 1;
const DIRECTORY: u64 = 2;

fn wanted(stock: &[u8], site: &[u8], name: &[u8]) -> Wanted {
    Wanted {
        files: [stock.to_vec(), site.to_vec()],
        name: name.to_vec(),
        report: 3,
    }
}

/// Both sides find it so.
fn found(wanted: &Wanted, number: u64, report: [u64; 3]) {
    let reply = Both.find_policy(wanted);
    assert_eq!(
        (reply.number, &reply.report[..]),
        (number, &report[..]),
        "{wanted:?}"
    );
}

/// A file that is damaged at a place, whatever is asked for and in either place.
fn damaged(file: &[u8], place: usize) {
    let place = place as u64;
    for name in [&b"p"[..], b"q", b""] {
        found(&wanted(file, &[], name), EBADMSG.returned(), [0, place, 0]);
        found(&wanted(&[], file, name), EBADMSG.returned(), [1, place, 0]);
        found(&wanted(file, &[9], name), EBADMSG.returned(), [0, place, 0]);
    }
}

/// A file that nothing is wrong with.
fn fine(file: &[u8]) {
    found(&wanted(file, &[], b"none such"), ENOENT.returned(), [0; 3]);
}

/// Both sides apply the stock file's ruleset "p" so, and change nothing if it is refused.
fn applied(tables: &mut Tables, file: &[u8], answer: Result<u64, Errno>) {
    let before = tables.clone();
    let reply = Both.apply_policy(tables, &wanted(file, &[], b"p"));
    let number = answer.unwrap_or_else(Errno::returned);
    assert_eq!(reply.number, number, "{file:?}");
    if answer.is_err() {
        assert!(*tables == before);
        assert_eq!(reply.report, [0; 3]);
    }
}

fn p() -> Vec<u8> {
    opening(b"p", [READ | WRITE, BIND, 0])
}

#[test]
fn files_that_are_fine() {
    fine(&[]);
    fine(&p());
    fine(&[p(), opening(b"q", [0; 3])].concat());
    fine(&[p(), path_rule(0, b""), port_rule(u64::MAX, 65_535)].concat());
    fine(
        &[
            opening(b"p", [u64::MAX; 3]),
            path_rule(u64::MAX, b"\0no path"),
        ]
        .concat(),
    );
    fine(&[opening(&[0; 32], [0; 3]), opening(&[0; 31], [0; 3])].concat());
}

#[test]
fn the_example_of_request_w12() {
    let fs = 0x2126;
    let file = [
        opening(b"p", [fs, 0, 0]),
        path_rule(4, b"/cal"),
        path_rule(fs, b"/import"),
    ]
    .concat();
    assert_eq!(file.len(), 64);
    found(&wanted(&file, &[], b"p"), 0, [0, 0, 64]);
    let mut tables = encode(&worked_tree(6));
    applied(&mut tables, &file, Ok(0));
    assert_eq!(tables.cell(Table::Rulesets, 0), fs);
    assert_eq!(tables.cell(Table::Rulesets, 3), 2);
}

#[test]
fn a_last_tag_2_that_is_missing() {
    let name = field(1, b"p");
    damaged(&name, name.len());
    let second = [p(), field(1, b"q")].concat();
    damaged(&second, second.len());
    // The name is tested before that.
    damaged(&[p(), field(1, b"p")].concat(), p().len());
    damaged(&field(1, b""), 0);
    damaged(&field(1, &[b'n'; 33]), 0);
    // And not only the masks are missing here.
    damaged(&[name.clone(), vec![2]].concat(), name.len());
    damaged(&[name.clone(), vec![2, 24]].concat(), name.len());
    damaged(&[name.clone(), vec![2, 24, 0]].concat(), name.len());
    damaged(&[name.clone(), path_rule(4, b"/")].concat(), name.len());
    damaged(&[name.clone(), field(1, b"q")].concat(), name.len());
}

#[test]
fn stray_bytes() {
    for stray in [&[0][..], &[1], &[2], &[3], &[1, 0], &[3, 8], &[255, 255]] {
        damaged(stray, 0);
        damaged(&[&p(), stray].concat(), p().len());
        let name = field(1, b"p");
        damaged(&[&name, stray].concat(), name.len());
        let rule = [p(), path_rule(4, b"/")].concat();
        damaged(&[&rule, stray].concat(), rule.len());
    }
}

#[test]
fn faulty_fields() {
    let first = p().len();
    for tag in (0..=255).filter(|tag| ![1, 3, 4, 5].contains(tag)) {
        for length in [0, 1, 8, 10, 24] {
            let other = field(tag, &vec![1; length]);
            damaged(&[&p(), &other[..], &[9]].concat(), first);
            damaged(&other, 0);
        }
    }
    for length in 0..30 {
        let value = vec![0; length];
        let path = [p(), field(3, &value)].concat();
        let port = [p(), field(4, &value)].concat();
        let masks = [field(1, b"p"), field(2, &value)].concat();
        match length {
            0..8 => damaged(&path, first),
            _ => fine(&path),
        }
        match length {
            10 => fine(&port),
            _ => damaged(&port, first),
        }
        match length {
            24 => fine(&masks),
            _ => damaged(&masks, 4),
        }
    }
    damaged(&path_rule(4, b"/"), 0);
    damaged(&field(2, &[0; 24]), 0);
}

#[test]
fn values_past_the_end() {
    let whole = [p(), path_rule(4, b"/cal"), port_rule(1, 80)].concat();
    let places = [0, 4, p().len(), p().len() + 15, whole.len()];
    for cut in 0..whole.len() {
        let start = places.into_iter().filter(|place| *place <= cut).max();
        match cut {
            // A file may end after whole rules.
            _ if [0, 31, 46].contains(&cut) => fine(&whole[..cut]),
            _ => damaged(&whole[..cut], start.unwrap()),
        }
    }
    let mut longest = p();
    longest.extend([3, 255, 255]);
    longest.extend([0; 65]);
    damaged(&longest, p().len());
}

#[test]
fn names_and_their_parts() {
    let stock = [p(), path_rule(4, b"/cal"), opening(b"q", [1, 0, 0])].concat();
    let site = [opening(b"q", [2, 0, 0]), opening(b"r", [4, 0, 0])].concat();
    found(&wanted(&stock, &site, b"p"), 0, [File::Stock as u64, 0, 46]);
    found(&wanted(&stock, &site, b"q"), 0, [File::Site as u64, 0, 31]);
    found(&wanted(&stock, &[], b"q"), 0, [File::Stock as u64, 46, 31]);
    found(&wanted(&stock, &site, b"r"), 0, [File::Site as u64, 31, 31]);
    for name in [&b""[..], b"P", b"pp", b"p\0", &[b'p'; 33], &[0; 70_000]] {
        found(&wanted(&stock, &site, name), ENOENT.returned(), [0; 3]);
    }
    let longest = opening(&[b'n'; 32], [1, 0, 0]);
    found(&wanted(&longest, &[], &[b'n'; 32]), 0, [0, 0, 62]);
    found(
        &wanted(&longest, &[], &[b'n'; 31]),
        ENOENT.returned(),
        [0; 3],
    );
}

#[test]
fn sizes() {
    let mut longest = p();
    fill_to(&mut longest, 32_768);
    assert_eq!(longest.len(), 32_768);
    found(&wanted(&longest, &longest, b"p"), 0, [1, 0, 32_768]);
    let longer = [&longest[..], &[1]].concat();
    damaged(&longest[..32_767], p().len());
    for file in [longer, vec![0; 32_769], vec![1; 100_000]] {
        found(&wanted(&file, &[], b"p"), E2BIG.returned(), [0; 3]);
        found(&wanted(&[], &file, b"p"), E2BIG.returned(), [1, 0, 0]);
        // Stock first, its size before its fields.
        found(&wanted(&file, &[9], b"p"), E2BIG.returned(), [0; 3]);
        found(&wanted(&[9], &file, b"p"), EBADMSG.returned(), [0; 3]);
    }
}

#[test]
fn a_thousand_rulesets() {
    let name = |number: u16| number.to_be_bytes();
    let file: Vec<u8> = (0..1024)
        .flat_map(|n| opening(&name(n), [1, 0, 0]))
        .collect();
    assert_eq!(file.len(), 32_768);
    for number in [0, 1, 255, 256, 511, 1023] {
        let place = 32 * u64::from(number);
        found(&wanted(&file, &[], &name(number)), 0, [0, place, 32]);
    }
    // Names that differ in their last byte, and the last one twice.
    let long = |last: u8| [&[b'n'; 31][..], &[last]].concat();
    let mut alike: Vec<u8> = (0..=255)
        .flat_map(|n| opening(&long(n), [1, 0, 0]))
        .collect();
    found(&wanted(&alike, &[], &long(255)), 0, [0, 255 * 62, 62]);
    alike.extend(opening(&long(0), [1, 0, 0]));
    damaged(&alike, 256 * 62);
}

/// The refusals of the calls that an application makes, in their order.
#[test]
fn refusals_of_an_application() {
    let tables = |level| encode(&worked_tree(level));
    let masks = |masks| opening(b"p", masks);
    for (level, file, answer) in [
        (0, p(), Err(EOPNOTSUPP)),
        (6, masks([0; 3]), Err(ENOMSG)),
        (6, masks([1 << 16, 0, 0]), Err(EINVAL)),
        (1, masks([1 << 13, 0, 0]), Err(EINVAL)),
        (3, masks([4, 1, 0]), Err(E2BIG)),
        (5, masks([4, 1, 1]), Err(E2BIG)),
        (4, masks([4, 1, 0]), Ok(0)),
        (6, [p(), path_rule(READ, b"")].concat(), Err(ENOENT)),
        (6, [p(), path_rule(READ, b"cal")].concat(), Err(EINVAL)),
        (6, [p(), path_rule(READ, b"/cal\0")].concat(), Err(EINVAL)),
        (6, [p(), path_rule(READ, b"/none")].concat(), Err(ENOENT)),
        // A lookup's refusal comes before the add's.
        (6, [p(), path_rule(0, b"/none")].concat(), Err(ENOENT)),
        (6, [p(), path_rule(0, b"/cal")].concat(), Err(ENOMSG)),
        (6, [p(), path_rule(1, b"/cal")].concat(), Err(EINVAL)),
        (
            6,
            [p(), path_rule(READ, b"/cal/table/x")].concat(),
            Err(ENOTDIR),
        ),
        (
            6,
            [p(), path_rule(READ, &[b'/'; 4096])].concat(),
            Err(ENAMETOOLONG),
        ),
        (6, [p(), path_rule(READ, &[b'/'; 4095])].concat(), Ok(0)),
        // All of these are the root.
        (6, [p(), path_rule(WRITE, b"/")].concat(), Err(EPERM)),
        (6, [p(), path_rule(WRITE, b"/.")].concat(), Err(EPERM)),
        (6, [p(), path_rule(WRITE, b"/cal/..")].concat(), Err(EPERM)),
        (6, [p(), port_rule(2, 80)].concat(), Err(EINVAL)),
        (6, [p(), port_rule(0, 80)].concat(), Err(ENOMSG)),
        (6, [p(), port_rule(BIND, 65_535)].concat(), Ok(0)),
    ] {
        applied(&mut tables(level), &file, answer);
    }
}

#[test]
fn a_refused_rule_at_each_place() {
    let good = [
        path_rule(READ, b"/cal"),
        path_rule(WRITE, b"/import/feed"),
        port_rule(BIND, 80),
        path_rule(READ, b"/"),
        port_rule(BIND, 443),
        path_rule(READ | WRITE, b"/cal"),
    ];
    let bad = [
        (path_rule(READ, b"/none"), ENOENT),
        (path_rule(WRITE, b"/"), EPERM),
        (path_rule(1 << 3, b"/cal"), EINVAL),
        (path_rule(0, b"/cal"), ENOMSG),
        (port_rule(0, 1), ENOMSG),
    ];
    for (rule, errno) in bad {
        for place in 0..=good.len() {
            let mut rules = good.to_vec();
            rules.insert(place, rule.clone());
            // A second bad rule behind it is not reached.
            rules.push(path_rule(READ, b"relative"));
            let mut model = worked_tree(6);
            model.create_ruleset(&READ.to_le_bytes(), 0).unwrap();
            applied(
                &mut encode(&model),
                &[p(), rules.concat()].concat(),
                Err(errno),
            );
        }
    }
    let mut tables = encode(&worked_tree(6));
    applied(&mut tables, &[p(), good.concat()].concat(), Ok(0));
    // Five rules: the last one joins the first.
    assert_eq!(tables.cell(Table::Rulesets, 3), 5);
    assert_eq!(tables.cell(Table::Rulesets, 4 + 2), READ | WRITE);
}

#[test]
fn full_tables() {
    let rules = |count| (0..count).flat_map(|port| port_rule(BIND, port));
    let file = |count| [p(), rules(count).collect()].concat();
    applied(&mut encode(&worked_tree(6)), &file(64), Ok(0));
    applied(&mut encode(&worked_tree(6)), &file(65), Err(E2BIG));
    let mut model = Model::fresh(6);
    for ruleset in 0..16 {
        applied(&mut encode(&model), &p(), Ok(ruleset));
        model.create_ruleset(&READ.to_le_bytes(), 0).unwrap();
    }
    applied(&mut encode(&model), &p(), Err(EMFILE));
    // A closed number is used again, lowest first.
    model.close_ruleset(5).unwrap();
    applied(&mut encode(&model), &p(), Ok(5));
}

#[test]
fn tables_before_files() {
    let mut tables = encode(&worked_tree(6));
    tables.poke(Table::System, 0, 7);
    for file in [&p()[..], &[9], &[0; 32_769], &[]] {
        applied(&mut tables, file, Err(EIO));
    }
}

#[test]
fn the_tree_at_the_application() {
    let mut model = worked_tree(6);
    let file = [p(), path_rule(READ, b"/cal/table")].concat();
    applied(&mut encode(&model), &file, Ok(0));
    model.rename(0, 3, 2, b"table").unwrap();
    applied(&mut encode(&model), &file, Err(ENOENT));
    model.create(0, 1, DIRECTORY, b"table").unwrap();
    let mut tables = encode(&model);
    applied(&mut tables, &file, Ok(0));
    // The new entry's object is 5.
    assert_eq!(tables.cell(Table::Rulesets, 4 + 1), 5);
}

#[test]
fn groups_that_are_fine() {
    for level in 1..=6 {
        fine(&[p(), group(level, &[])].concat());
        fine(&[p(), group(level, &path_rule(4, b"/"))].concat());
        fine(&[p(), group(level, &group(7 - level, &[])), port_rule(1, 1)].concat());
    }
    for depth in 1..=8 {
        fine(&[p(), nested(depth, &port_rule(1, 1))].concat());
    }
    // Eight deep twice, one behind the other.
    fine(&[p(), nested(8, &[]), nested(8, &[])].concat());
}

#[test]
fn groups_that_are_faulty() {
    let first = p().len();
    for value in [
        &[][..],
        &[0],
        &[7],
        &[255],
        &[0, 3, 8, 0, 0, 0, 0, 0, 0, 0, 0, 0],
    ] {
        damaged(&[p(), field(5, value)].concat(), first);
        damaged(&[p(), group(1, &field(5, value))].concat(), first + 4);
    }
    // Only where a rule may stand.
    damaged(&group(1, &[]), 0);
    damaged(&[field(1, b"p"), group(1, &[])].concat(), 4);
    // A ninth is faulty at its own place, whatever is in it.
    for inner in [&[][..], &[9], &path_rule(4, b"/")] {
        damaged(&[p(), nested(9, inner)].concat(), first + 4 * 8);
        damaged(&[p(), nested(10, inner)].concat(), first + 4 * 8);
    }
    damaged(&[p(), nested(8, &field(5, &[]))].concat(), first + 4 * 8);
}

/// An inner field is faulty at its own place, counted or not.
#[test]
fn faulty_fields_in_groups() {
    let first = p().len();
    let rule = path_rule(4, b"/cal");
    for (level, bad) in (1..=6).flat_map(|level| {
        let fields = [
            vec![0],
            vec![3, 8],
            field(0, &[]),
            field(1, b"q"),
            opening(b"q", [1, 0, 0]),
            field(2, &[0; 24]),
            field(3, &[0; 7]),
            field(4, &[0; 9]),
            field(6, &[1]),
            // It would fit the file, and does not fit its group.
            vec![3, 9, 0, 4, 0, 0, 0, 0, 0, 0, 0],
        ];
        fields.map(|bad| (level, bad))
    }) {
        let behind = path_rule(4, b"/import");
        damaged(
            &[p(), group(level, &bad), behind.clone()].concat(),
            first + 4,
        );
        let second = [&rule[..], &bad].concat();
        damaged(
            &[p(), group(level, &second), behind.clone()].concat(),
            first + 4 + 15,
        );
        let inner = [rule.clone(), group(1, &second)].concat();
        damaged(
            &[p(), group(level, &inner), behind].concat(),
            first + 4 + 15 + 4 + 15,
        );
    }
}

/// Rules that count at each level, and the masks of each create.
#[test]
fn groups_at_each_level() {
    let all = [0xffff, 3, 3];
    let bind = |level: u8| group(level, &path_rule(1 << 1, b"/cal"));
    for level in 1..=6u8 {
        for lowest in 1..=6u8 {
            let file = [opening(b"p", all), path_rule(READ, b"/cal"), bind(lowest)].concat();
            let mut tables = encode(&worked_tree(level.into()));
            applied(&mut tables, &file, Ok(0));
            let rights = if lowest <= level { READ | WRITE } else { READ };
            assert_eq!(
                tables.cell(Table::Rulesets, 4 + 2),
                rights,
                "{level} {lowest}"
            );
            let fs = [0, 0x1fff, 0x3fff, 0x7fff, 0x7fff, 0xffff, 0xffff][usize::from(level)];
            let others = [level >= 4, level >= 6].map(|known| if known { 3 } else { 0 });
            let masks = [0, 1, 2].map(|cell| tables.cell(Table::Rulesets, cell));
            assert_eq!(masks, [fs, others[0], others[1]], "{level}");
        }
    }
    // The groups around it count as well.
    let inner = group(2, &path_rule(WRITE, b"/cal"));
    for (level, rules) in [(2, 0), (4, 0), (5, 1), (6, 1)] {
        let file = [opening(b"p", all), group(5, &inner)].concat();
        let mut tables = encode(&worked_tree(level));
        applied(&mut tables, &file, Ok(0));
        assert_eq!(tables.cell(Table::Rulesets, 3), rules, "{level}");
    }
}

#[test]
fn masks_and_groups() {
    let none = group(6, &[]);
    for (level, masks, groups, answer) in [
        // Without groups the masks are as they are.
        (1, [1 << 13 | 4, 0, 0], false, Err(EINVAL)),
        (3, [4, 3, 0], false, Err(E2BIG)),
        // An empty group, or one that does not count, is a group.
        (1, [1 << 13 | 4, 0, 0], true, Ok(0)),
        (3, [4, 3, 3], true, Ok(0)),
        (5, [4, 0, 3], true, Ok(0)),
        (6, [4, 0, 3], true, Ok(0)),
        // Bits that no level knows stay.
        (3, [4, 1 << 5, 0], true, Err(E2BIG)),
        (3, [4, 3 | 1 << 2, 0], true, Err(E2BIG)),
        (4, [4, 1 << 5, 0], true, Err(EINVAL)),
        (6, [4, 1 << 5, 0], true, Err(EINVAL)),
        (6, [1 << 16, 0, 0], true, Err(EINVAL)),
        (5, [4, 0, 1 << 2], true, Err(E2BIG)),
        (1, [1 << 63 | 4, 0, 0], true, Err(EINVAL)),
        // Nothing is left.
        (1, [1 << 13, 0, 0], true, Err(ENOMSG)),
        (3, [0, 3, 3], true, Err(ENOMSG)),
        (4, [0, 0, 3], true, Err(ENOMSG)),
        (0, [4, 0, 0], true, Err(EOPNOTSUPP)),
    ] {
        let mut file = opening(b"p", masks);
        if groups {
            file.extend(&none);
        }
        applied(&mut encode(&worked_tree(level)), &file, answer);
    }
    // Another ruleset's groups are none of this one.
    let file = [
        opening(b"p", [1 << 13, 0, 0]),
        opening(b"q", [4, 0, 0]),
        none,
    ]
    .concat();
    applied(&mut encode(&worked_tree(1)), &file, Err(EINVAL));
}

/// Rights of rules are never cut: one for a higher level stands in a group.
#[test]
fn rights_in_and_outside_of_groups() {
    let ioctl = 1 << 15;
    let rule = path_rule(READ | ioctl, b"/cal");
    let masks = opening(b"p", [READ | ioctl, 3, 0]);
    let outside = [masks.clone(), rule.clone(), group(6, &[])].concat();
    let inside = [masks.clone(), group(5, &rule)].concat();
    let port = [masks, group(4, &port_rule(1, 80))].concat();
    for level in 1..=6 {
        let known = if level >= 5 { Ok(0) } else { Err(EINVAL) };
        applied(&mut encode(&worked_tree(level)), &outside, known);
        applied(&mut encode(&worked_tree(level)), &inside, Ok(0));
        applied(&mut encode(&worked_tree(level)), &port, Ok(0));
    }
    // A refused rule in a group that does not count is not reached.
    let file = [p(), group(5, &path_rule(0, b"/none"))].concat();
    applied(&mut encode(&worked_tree(4)), &file, Ok(0));
    applied(&mut encode(&worked_tree(5)), &file, Err(ENOENT));
}
