use skeinrabbit::{AccessFs, Entry, Errno, Kind, Level, Refusal, Tables, Thread};

fn main() -> Result<(), Errno> {
    let level = Level::LATEST;
    let mut tables = Tables::new(level)?;
    let cal = tables.create(Thread::MAIN, Entry::ROOT, Kind::DIRECTORY, "cal")?;
    let table = tables.create(Thread::MAIN, cal, Kind::REGULAR, "table")?;

    tables.set_no_new_privs(Thread::MAIN)?;
    let layer = tables
        .ruleset()
        .handle_fs(AccessFs::from_all(level))
        .create()?
        .add_path(cal, AccessFs::from_read(level))?
        .restrict(Thread::MAIN)?;

    let may = |rights| tables.access(Thread::MAIN, table, rights);
    assert_eq!(may(AccessFs::READ_FILE), Ok(()));
    let rights = AccessFs::WRITE_FILE;
    assert_eq!(may(rights), Err(Refusal::Denied { layer, rights }));
    assert_eq!(tables.layer_rules(layer)?.len(), 1);
    Ok(())
}
