//! A letter for each right. What can be made has the letter that `ls -l` gives its kind, a regular file an `f`.
use super::Held;
use skeinrabbit::{PortRights, Rights};

/// The letters of the 16 rights, lowest bit first.
const FILES: [char; 16] = [
    'x', 'w', 'r', 'l', 'D', 'R', 'c', 'd', 'f', 's', 'p', 'b', 'y', 'm', 't', 'i',
];
const PORTS: [char; 2] = ['b', 'c'];

/// What a letter says of a right: granted, denied, or none of this kind of entry.
#[derive(Clone, Copy, Debug, PartialEq, Eq)]
pub enum Mark {
    Granted(char),
    Denied(char),
    Other,
}

impl Mark {
    pub fn letter(self) -> char {
        match self {
            Mark::Granted(letter) => letter,
            Mark::Denied(_) => '-',
            Mark::Other => '.',
        }
    }
}

fn letter(letters: &[char], bits: u64) -> char {
    let place = bits.trailing_zeros();
    letters.get(place as usize).copied().unwrap_or('?')
}

/// A mark for each right that is shown at an entry.
pub fn at_entry(columns: Rights, held: &Held<Rights>) -> Vec<Mark> {
    let mark = |right: Rights| {
        let letter = letter(&FILES, right.bits());
        if held.granted.contains(right) {
            Mark::Granted(letter)
        } else if held.denied.contains(right) {
            Mark::Denied(letter)
        } else {
            Mark::Other
        }
    };
    columns.iter().map(mark).collect()
}

/// A mark for each right at a port.
pub fn at_port(held: &Held<PortRights>) -> Vec<Mark> {
    let mark = |right: PortRights| {
        let letter = letter(&PORTS, right.bits());
        match held.granted.contains(right) {
            true => Mark::Granted(letter),
            false => Mark::Denied(letter),
        }
    };
    PortRights::ALL.iter().map(mark).collect()
}

/// The letters of rights with their names.
pub fn of_files(rights: Rights) -> Vec<(char, String)> {
    let named = |right: Rights| (letter(&FILES, right.bits()), right.to_string());
    rights.iter().map(named).collect()
}

pub fn of_ports() -> Vec<(char, String)> {
    let named = |right: PortRights| (letter(&PORTS, right.bits()), right.to_string());
    PortRights::ALL.iter().map(named).collect()
}

#[cfg(test)]
mod tests {
    use super::*;
    use std::collections::BTreeSet;

    #[test]
    fn no_two_rights_share_a_letter() {
        let letters: BTreeSet<char> = FILES.into_iter().collect();
        assert_eq!(letters.len(), 16);
        assert!(!letters.contains(&'-') && !letters.contains(&'.'));
        let [write, read] = [Rights::WRITE_FILE, Rights::READ_FILE].map(of_files);
        assert_eq!(write, [('w', "write_file".to_owned())]);
        assert_eq!(read, [('r', "read_file".to_owned())]);
        assert_eq!(of_files(Rights::REFER), [('m', "refer".to_owned())]);
        assert_eq!(of_files(Rights::IOCTL_DEV), [('i', "ioctl_dev".to_owned())]);
    }
}
