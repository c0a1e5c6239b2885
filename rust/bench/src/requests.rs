//! The requests of batches, in the cells that the core takes, the same in every run.

use crate::inputs::access_request;
use crate::landlock::{ALL_NET, DIRECTORY, PORT_RULE};
use crate::tables::Tables;
use random::Random;
use skeinrabbit_sys::layout::{MAX_NAME, RULE_WIDTH};

/// A request: sort (1 access, 2 port, 3 link, 4 rename, 5 exchange), thread, three numbers, and where its name stands in the names
/// and how long it is.
pub const REQUEST_WIDTH: usize = 7;
/// An answer: error number or 0, layer, rights.
pub const ANSWER_WIDTH: usize = 3;

/// Requests, and the bytes that their names are parts of.
pub struct Requests {
    pub cells: Vec<u64>,
    pub names: Vec<u8>,
}

/// A part of the names; none if it doesn't lie in them.
pub fn part(names: &[u8], from: u64, length: u64) -> &[u8] {
    let (from, length) = (from as usize, length as usize);
    let part = names.get(from..).and_then(|rest| rest.get(..length));
    part.unwrap_or_default()
}

impl Requests {
    /// So many requests: access 40 %, port 10, link 15, rename 25, exchange 10. One in sixteen has an odd number in it.
    pub fn mixed(tables: &Tables, count: usize) -> Requests {
        let mut making = Making::new(tables);
        let mut cells = Vec::with_capacity(REQUEST_WIDTH * count);
        for _ in 0..count {
            cells.extend(making.request());
        }
        Requests {
            cells,
            names: making.names,
        }
    }
}

struct Making<'a> {
    tables: &'a Tables,
    random: Random,
    directories: Vec<u64>,
    threads: u64,
    /// The ports of rules.
    ports: Vec<u64>,
    names: Vec<u8>,
    /// Where each entry's name stands in the names.
    places: Vec<[u64; 2]>,
    /// Where names stand that no entry bears.
    new: Vec<[u64; 2]>,
    /// The entries in each directory.
    children: Vec<Vec<u64>>,
}

impl<'a> Making<'a> {
    fn new(tables: &'a Tables) -> Making<'a> {
        let live = tables.live_entries();
        let mut names = Vec::new();
        let mut add = |name: &[u8]| {
            names.extend_from_slice(name);
            [names.len() - name.len(), name.len()].map(|number| number as u64)
        };
        let places = (0..live).map(|entry| add(tables.name(entry))).collect();
        let new = (0..256).map(|number| add(&new_name(number))).collect();
        let mut children = vec![Vec::new(); live as usize];
        for entry in 1..live {
            children[tables.parent(entry) as usize].push(entry);
        }
        let rules = tables.pool.chunks_exact(RULE_WIDTH);
        Making {
            tables,
            random: Random::new(51),
            directories: (0..live)
                .filter(|entry| tables.kind(*entry) == DIRECTORY)
                .collect(),
            threads: tables.live_threads() as u64,
            ports: rules
                .filter(|rule| rule[0] == PORT_RULE)
                .map(|rule| rule[1])
                .collect(),
            names,
            places,
            new,
            children,
        }
    }

    fn request(&mut self) -> [u64; REQUEST_WIDTH] {
        let thread = self.random.below(self.threads);
        let (sort, [a, b, c], [from, length]) = match self.random.below(100) {
            0..40 => {
                let (entry, asked) = access_request(self.tables, &mut self.random);
                (1, [entry, asked, 0], [0, 0])
            }
            40..50 => (2, self.port(), [0, 0]),
            50..65 => {
                let [source, directory] = self.source_and_directory();
                let name = self.name(8, source, directory);
                (3, [source, directory, 0], name)
            }
            65..90 => {
                let [source, directory] = self.source_and_directory();
                let name = self.name(2, source, directory);
                (4, [source, directory, 0], name)
            }
            _ => {
                let [source, other] = [self.entry(), self.entry()];
                (5, [source, self.tables.parent(other), other], [0, 0])
            }
        };
        let mut request = [sort, thread, a, b, c, from, length];
        if self.random.below(16) == 0 {
            let cell = 1 + self.random.below(REQUEST_WIDTH as u64 - 1) as usize;
            request[cell] = self
                .random
                .pick(&[0, 1, 7, 49, 1000, 1023, 1024, 70_000, u64::MAX]);
        }
        request
    }

    /// An entry other than the root.
    fn entry(&mut self) -> u64 {
        1 + self.random.below(self.places.len() as u64 - 1)
    }

    fn port(&mut self) -> [u64; 3] {
        let port = if self.random.below(2) == 0 && !self.ports.is_empty() {
            self.random.pick(&self.ports)
        } else {
            self.random.below(65_536)
        };
        [port, 1 + self.random.below(ALL_NET), 0]
    }

    /// One time in four the directory is the source's own.
    fn source_and_directory(&mut self) -> [u64; 2] {
        let source = self.entry();
        let directory = if self.random.below(4) == 0 {
            self.tables.parent(source)
        } else {
            self.random.pick(&self.directories)
        };
        [source, directory]
    }

    /// One time in so many the name of an entry in the directory, or the source's own name; else one that no entry bears.
    fn name(&mut self, taken: u64, source: u64, directory: u64) -> [u64; 2] {
        let children = &self.children[directory as usize];
        if self.random.below(taken) != 0 {
            self.random.pick(&self.new)
        } else if children.is_empty() {
            self.places[source as usize]
        } else {
            self.places[self.random.pick(children) as usize]
        }
    }
}

/// A name that no entry of the inputs bears: one in sixteen is as long as can be, one in 64 is bad.
fn new_name(number: usize) -> Vec<u8> {
    match number % 64 {
        0 => b"up/down".to_vec(),
        16 | 32 | 48 => format!("{number:x>MAX_NAME$}").into_bytes(),
        _ => format!("draft-{number}").into_bytes(),
    }
}
