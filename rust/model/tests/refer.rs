//! Request W3: a layer handles REFER unasked only if its file system mask is not zero. The model and
//! the proved core are asked, and the model also by the rule of Linux.

use model::call::{Broker, Call};
use model::proved::Both;
use model::refusal::Errno::{EACCES, EXDEV};
use model::refusal::{returned, Errno};
use model::rights::{Masks, Rights};
use model::state::{Layer, Model};
use model::tables::encode;

const EXECUTE: u64 = Rights::EXECUTE.0;
const REFER: u64 = Rights::REFER.0;
const REGULAR: u64 = 1;
const DIRECTORY: u64 = 2;
/// The cells of a report, more than are said.
const REPORT: u64 = 5;

/// The three masks of a layer, which grants all that its file system mask has in both directories.
type Asked = [u64; 3];

const NET: Asked = [0, 1, 0];
const SCOPES: Asked = [0, 0, 3];
/// REFER unasked: no rule can grant it.
const UNASKED: Asked = [EXECUTE, 0, 0];
const UNASKED_WITH_NET: Asked = [EXECUTE, 3, 0];
const GRANTING: Asked = [EXECUTE | REFER, 0, 0];

/// Directories 1 and 2, files 3 in 1 and 4 in 2, a directory 5 in 1, each named by its number; thread 0 has the layers, the
/// oldest first.
fn under(layers: &[Asked]) -> Model {
    let mut model = Model::fresh(6);
    let places = [
        (0, DIRECTORY),
        (0, DIRECTORY),
        (1, REGULAR),
        (2, REGULAR),
        (1, DIRECTORY),
    ];
    for (name, (directory, kind)) in [b"1", b"2", b"3", b"4", b"5"].into_iter().zip(places) {
        model.create(0, directory, kind, name).unwrap();
    }
    model.set_no_new_privs(0).unwrap();
    for masks in layers {
        let bytes: Vec<u8> = masks.iter().flat_map(|mask| mask.to_le_bytes()).collect();
        let ruleset = model.create_ruleset(&bytes, 0).unwrap();
        for directory in [1, 2] {
            if masks[0] != 0 {
                model
                    .add_path_rule(ruleset, directory, masks[0], 0)
                    .unwrap();
            }
        }
        model.restrict(0, ruleset, 0).unwrap();
    }
    model
}

/// An access for REFER; a link, renames of a file and of a directory, and an exchange between two
/// directories.
fn requests() -> [Call; 5] {
    let rename = |source| Call::Rename {
        name: b"new".to_vec(),
        thread: 0,
        source,
        directory: 2,
        report: REPORT,
    };
    [
        Call::Access {
            thread: 0,
            entry: 1,
            rights: REFER,
            report: REPORT,
        },
        Call::Link {
            name: b"new".to_vec(),
            thread: 0,
            source: 3,
            directory: 2,
            report: REPORT,
        },
        rename(3),
        rename(5),
        Call::Exchange {
            thread: 0,
            source: 3,
            directory: 2,
            entry: 4,
            report: REPORT,
        },
    ]
}

/// The answers where REFER is granted: the link is entry 6.
const GRANTED: [u64; 5] = [0, 6, 0, 0, 0];

fn denied() -> [u64; 5] {
    [EACCES, EXDEV, EXDEV, EXDEV, EXDEV].map(Errno::returned)
}

/// Each request's answer by the model and the core.
fn answers(model: &Model) -> [u64; 5] {
    requests().map(|call| Both.answer(&mut encode(model), &call).number)
}

fn answers_by_domain(model: &Model) -> [u64; 5] {
    requests().map(|call| returned(model.answer_by_domain(&call).0))
}

#[test]
fn what_a_layer_handles() {
    let handled = |[fs, net, scope]: Asked| {
        let [fs, net, scope] = [fs, net, scope].map(Rights);
        let masks = Masks { fs, net, scope };
        let layer = Layer::default();
        Layer { masks, ..layer }.handled()
    };
    assert_eq!(handled(NET), Rights::NONE);
    assert_eq!(handled(SCOPES), Rights::NONE);
    assert_eq!(handled([0, 3, 3]), Rights::NONE);
    assert_eq!(handled(UNASKED), Rights(EXECUTE | REFER));
    assert_eq!(handled(UNASKED_WITH_NET), Rights(EXECUTE | REFER));
    assert_eq!(handled([REFER, 0, 0]), Rights::REFER);
}

#[test]
fn a_layer_without_a_file_system_mask_denies_nothing() {
    let domains: [&[Asked]; 8] = [
        &[NET],
        &[SCOPES],
        &[[0, 3, 3]],
        &[NET, SCOPES],
        &[GRANTING],
        &[GRANTING, NET],
        &[SCOPES, GRANTING],
        &[NET, GRANTING, SCOPES],
    ];
    for layers in domains {
        assert_eq!(answers(&under(layers)), GRANTED, "{layers:?}");
    }
}

#[test]
fn a_layer_with_a_file_system_mask_denies_refer_wherever_it_stands() {
    let domains: [&[Asked]; 5] = [
        &[UNASKED],
        &[UNASKED_WITH_NET],
        &[UNASKED, NET],
        &[SCOPES, UNASKED],
        &[GRANTING, UNASKED, NET],
    ];
    for layers in domains {
        assert_eq!(answers(&under(layers)), denied(), "{layers:?}");
    }
}

#[test]
fn linux_goes_by_the_domain() {
    let granted: [&[Asked]; 5] = [&[], &[NET], &[SCOPES], &[NET, SCOPES], &[GRANTING]];
    for layers in granted {
        assert_eq!(answers_by_domain(&under(layers)), GRANTED, "{layers:?}");
    }
    let refused: [&[Asked]; 4] = [
        &[UNASKED],
        &[GRANTING, NET],
        &[SCOPES, GRANTING],
        &[NET, SCOPES, GRANTING],
    ];
    for layers in refused {
        assert_eq!(answers_by_domain(&under(layers)), denied(), "{layers:?}");
    }
}

/// A layer of one domain is also a layer of another; each domain counts for itself.
#[test]
fn linux_goes_by_the_domain_of_the_caller() {
    let mut model = under(&[NET]);
    let other = model.clone_thread(0).unwrap();
    let bytes = GRANTING[0].to_le_bytes();
    let ruleset = model.create_ruleset(&bytes, 0).unwrap();
    model.restrict(other, ruleset, 0).unwrap();
    assert_eq!(answers_by_domain(&model), GRANTED);
}
