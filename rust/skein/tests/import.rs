//! `skein import`: a directory of the machine as a scenario.
mod support;
use std::ffi::OsStr;
use std::fs;
use std::os::unix::ffi::OsStrExt;
use std::os::unix::fs::symlink;
use std::os::unix::net::UnixListener;
use std::path::{Path, PathBuf};
use support::{skein, skein_with};

/// A directory of its own, which is removed at the end.
struct Tree(PathBuf);

impl Tree {
    fn new(name: &str) -> Tree {
        let unique = format!("skein-import-{}-{name}", std::process::id());
        let path = std::env::temp_dir().join(unique);
        fs::create_dir(&path).unwrap();
        Tree(path)
    }

    fn path(&self) -> &str {
        self.0.to_str().unwrap()
    }

    fn file(&self, name: &[u8]) {
        fs::write(self.0.join(OsStr::from_bytes(name)), b"").unwrap();
    }
}

impl Drop for Tree {
    fn drop(&mut self) {
        let _ = fs::remove_dir_all(&self.0);
    }
}

#[test]
fn a_tree_is_imported_with_kinds_names_and_links() {
    let tree = Tree::new("kinds");
    let at = |name: &str| tree.0.join(name);
    fs::create_dir_all(at("a b/deep")).unwrap();
    tree.file(b"table");
    tree.file(b"\xff#");
    fs::hard_link(at("table"), at("a b/deep/twin")).unwrap();
    symlink(Path::new("/nowhere"), at("link")).unwrap();
    let _socket = UnixListener::bind(at("s")).unwrap();
    let ran = skein(&["import", tree.path()]);
    assert_eq!((ran.code, ran.err.as_str()), (0, ""));
    let (first, calls) = ran.out.split_once('\n').unwrap();
    assert!(first.starts_with("# The tree of "), "{first}");
    let expected = "\
fresh 6
create main /a\\x20b directory
create main /link symlink
create main /s socket
create main /table regular
create main /\\xff\\x23 regular
create main /a\\x20b/deep directory
link main /table /a\\x20b/deep/twin
";
    assert_eq!(calls, expected);
    let played = skein_with(&["run", "-"], ran.out.as_bytes());
    assert_eq!(played.code, 0, "{}{}", played.out, played.err);
    assert!(played
        .out
        .ends_with("8 calls, 0 expectations, 0 differing\n"));
}

#[test]
fn an_empty_directory_is_a_tree_of_the_root_alone() {
    let tree = Tree::new("empty");
    let ran = skein(&["import", tree.path()]);
    let played = skein_with(&["run", "-"], ran.out.as_bytes());
    assert_eq!((ran.code, played.code), (0, 0), "{}", played.err);
}

#[test]
fn what_does_not_fit_is_said() {
    let tree = Tree::new("long");
    tree.file(&[b'n'; 48]);
    assert_eq!(skein(&["import", tree.path()]).code, 0);
    tree.file(&[b'n'; 49]);
    let ran = skein(&["import", tree.path()]);
    assert_eq!((ran.code, ran.out.as_str()), (2, ""));
    let message = ran.err.split_whitespace().collect::<Vec<_>>().join(" ");
    assert!(
        message.contains("a name of 49 bytes; at most 48 fit"),
        "{message}"
    );

    let tree = Tree::new("many");
    for number in 1..=1023 {
        tree.file(format!("{number}").as_bytes());
    }
    let ran = skein(&["import", tree.path()]);
    let played = skein_with(&["run", "-"], ran.out.as_bytes());
    assert_eq!((ran.code, played.code), (0, 0), "{}", played.err);
    tree.file(b"one more");
    let ran = skein(&["import", tree.path()]);
    assert_eq!((ran.code, ran.out.as_str()), (2, ""));
    assert!(ran.err.contains("1023"), "{}", ran.err);
}

#[test]
fn what_cannot_be_read_is_said() {
    let tree = Tree::new("unreadable");
    tree.file(b"file");
    for path in ["none", "file"] {
        let path = tree.0.join(path);
        let ran = skein(&["import", path.to_str().unwrap()]);
        assert_eq!((ran.code, ran.out.as_str()), (3, ""));
        assert!(ran.err.starts_with("skein: "), "{}", ran.err);
    }
}
