//! The text of `--help`, of all and of each command.

pub const VERSION: &str = concat!("skein ", env!("CARGO_PKG_VERSION"), "\n");

pub const USAGE: &str = "\
usage: skein run [--json] [--verbose] FILE
       skein explain [--json] [--all-rights] [--thread THREAD] ..
                     [--entry ENTRY] .. [--html PAGE] FILE
       skein why [--json] [--line LINE] FILE
       skein search [--json] [--thread THREAD] .. [--entry ENTRY] ..
                    [--right RIGHTS] [--depth N] [--states N] FILE
       skein diff [--json] FILE FILE
       skein diff --policy [--level N] [--json] FILE FILE
       skein least [--json] [--thread THREAD] .. [--from LINE] TRACE
       skein demo [--json] [--all-rights]
       skein import DIRECTORY
       skein policy check FILE
       skein policy show FILE
       skein policy build TEXT FILE
       skein policy find STOCK SITE NAME
       skein policy export SCENARIO RULESET NAME [FILE]
       skein [COMMAND] --help | --version
";

/// The help of a command, or of all.
pub fn text(of: Option<&str>) -> String {
    match of {
        Some("explain") => EXPLAIN.to_owned(),
        Some("why") => WHY.to_owned(),
        Some("search") => SEARCH.to_owned(),
        Some("diff") => DIFF.to_owned(),
        Some("least") => LEAST.to_owned(),
        _ => format!("{USAGE}{HELP}"),
    }
}

const EXPLAIN: &str = "\
usage: skein explain [--json] [--all-rights] [--thread THREAD] ..
                     [--entry ENTRY] .. [--html PAGE] FILE

Plays FILE without printing it, then shows what it leaves: a matrix of paths and
threads with a letter for each right, the same for ports, the threads with their
layers, the layers with what they handle, their rules and holders, and which
threads reach which by each scope that some layer handles. If an answer differs,
it says which and shows nothing. In full: docs/EXPLAIN.md.

  --thread THREAD  a tree of that thread with a column for each right; a label
                   or a number, and may be given several times
  --entry ENTRY    what each thread may do there, and which layer denies the
                   rest; a path, a label or a number, several times if wanted
  --html PAGE      writes one HTML page with all of it, and prints nothing
  --all-rights     all 16 rights, not only those that some layer handles
  --json           one JSON document, of the threads and entries asked for

Exit codes: 0 shown; 1 an answer differs; 2 bad input, or no such thread or
entry; 3 a file cannot be read or written; 64 wrong usage
";

const WHY: &str = "\
usage: skein why [--json] [--line LINE] FILE

Plays FILE and says of each line that a layer refused which layer it was, for
which rights, and the least rules that would grant it, found and checked by
playing FILE with them; of an EXDEV also what would be gained. In full:
docs/WHY.md.

  --line LINE  that line alone, whatever it answered
  --json       one JSON document

Exit codes: 0 said; 2 bad input, or a line without a call; 3 FILE cannot be
read; 64 wrong usage
";

const SEARCH: &str = "\
usage: skein search [--json] [--thread THREAD] .. [--entry ENTRY] ..
                    [--right RIGHTS] [--depth N] [--states N] FILE

Plays FILE, then asks whether the threads, together, can come to a right at an
entry that each of them lacked. It tries the calls that change the tree, breadth
first, and prints the shortest list of calls as lines to be played behind FILE,
or that there is none to the depth. In full: docs/SEARCH.md.

  --thread THREAD  the threads, by label or number; those with a layer if none
                   is named
  --entry ENTRY    only rights at these entries, by path, label or number
  --right RIGHTS   only these rights
  --depth N        the longest list of calls that is tried (4)
  --states N       the most states that are looked at (100,000)
  --json           one JSON document

Exit codes: 0 none; 1 found; 2 bad input; 3 FILE cannot be read; 4 undecided, as
the states ran out before the depth was reached; 64 wrong usage
";

const DIFF: &str = "\
usage: skein diff [--json] OLD NEW
       skein diff --policy [--level N] [--json] OLD NEW

Plays two files and prints which rights each thread gains (+) and loses (-) from
OLD to NEW, by path and port, and which threads it reaches newly or no longer.
Threads are the same if they have the same label, or number where they have
none. In full: docs/DIFF.md.

  --policy   OLD and NEW are policy files, as skein policy takes them: prints
             which rulesets are gone or new, and what the masks of the others
             and their rules at each path and port gain and lose
  --level N  policy files as they are at this level, 1 to 6 (6)
  --json     one JSON document

Exit codes: 0 no difference; 1 some; 2 bad input; 3 a file cannot be read; 64
wrong usage
";

const LEAST: &str = "\
usage: skein least [--json] [--thread THREAD] .. [--from LINE] TRACE

Plays TRACE, a scenario that records calls, and prints the least policy of each
thread under which every call that succeeded still does: a ruleset that handles
all it can, with the fewest rights. It is checked by playing TRACE with it, and
so is that without any one of these rights a call is refused. In full:
docs/LEAST.md.

  --thread THREAD  the threads, by label or number; if none is named, all that
                   make such calls, without main if there are others
  --from LINE      the calls from this line on; what stands above is not held
                   to the policy
  --json           one JSON document

Exit codes: 0 printed; 1 there is no such policy; 2 bad input; 3 TRACE cannot be
read; 64 wrong usage
";

/// What stands below the usage in `--help`.
pub const HELP: &str = "
Skein plays scenarios on Skeinrabbit, a file broker that answers as Linux's
Landlock would. A scenario is a text file with one call to a line: it builds a
file tree, sandboxes threads, and asks what they may do. FILE may be - for
standard input.

Commands
  run      plays FILE and prints each call with its answer: 0, the number of
           what was made (new 5), or the error (EACCES), and below it which
           layer refused and for which rights. An answer that the line does
           not allow is marked DIFFERS.
  explain  shows what FILE leaves: what each thread may do at each path and
           port, the layers with their rules, and which threads reach which.
  why      says of each line that a layer refused which layer it was, for which
           rights, and the least rules that would grant it.
  search   asks whether threads, together, can come to a right that each of
           them lacked, and prints the calls.
  diff     prints the rights that each thread gains and loses from one file to
           another; with --policy those of the rulesets of two policy files.
  least    prints the least policy under which the calls of a TRACE succeed.
  demo     shows document 01's worked tree as explain does, and plays its
           worked cases.
  import   prints a scenario that builds the tree of a DIRECTORY of this
           machine: kinds, names and hard links, but nothing of the files'
           contents. At most 1,023 entries fit, with names of at most 48
           bytes; if something does not fit, it says what and prints nothing.
  policy   is about policy files, which hold rulesets by their names. check says
           which ones a FILE has, or at which byte it is damaged and how; show
           prints it as text, one field to a line; build makes a FILE of such a
           TEXT; find says which of two files a NAME means, and prints its
           ruleset; export plays a SCENARIO and writes the RULESET that it
           leaves open, a label or a number, into a FILE under a NAME, or prints
           it as text. A file whose name ends in .txt is text and is built
           first; none is an empty one. docs/POLICY.md has both forms.

Options
  skein COMMAND --help says more of explain, why, search, diff and least.
  --json        one JSON document instead of text; docs/ has a page for each
                command that lists its fields (run: docs/SCENARIO.md)
  --all-rights  all 16 rights, not only those that some layer handles
  -v, --verbose says below each access and turn how many entries' rules were
                read
  --color WHEN  always, never or auto: where output is a terminal and NO_COLOR
                is not set (default)
  -h, --help    this text
  -V, --version the version

Format (in full: docs/SCENARIO.md)
  [repeat N] CALL ARGUMENT .. [-> LABEL] [=> ANSWER [layer=N] [rights=RIGHTS]
  [entries_read=N] [start=N] [length=N] [answer=ANSWER] [file=FILE] [place=N]
  [bytes=TEXT]]
  # a comment, to the end of the line

  repeat N makes the call N times, from 1 to 100,000, each with that answer.
  -> LABEL binds the number of what the call makes or finds; not with repeat.
  => ANSWER says what the call must answer: a number, new N, an error's name
  (EACCES) or its negated number (-13); ok for any success, new for any that
  makes something, any for any answer at all. Without => the call must succeed.
  layer=N and rights=RIGHTS say which layer must refuse and for which rights;
  none and none where no layer does. entries_read=N says how many entries'
  rules an access must read, start=N and length=N which part of its path a
  component must be. A turn answers the slot that it serves, or idle, with
  answer=, layer=, rights= and entries_read= for what it answers there; slot
  answers empty, waiting or answered, with the same words. ask says what the
  call behind it would answer up to and with its verdict; it makes nothing.
  find_policy and apply_policy say with file= (stock, site or none), place= and
  length= where the ruleset stands, or which file is damaged and where.
  write_policy answers how many bytes it wrote, and says which with bytes=.

  Tables start fresh at level 6, and so does the queue, which fresh leaves
  alone. A number is decimal or hexadecimal (0x1f). An entry, ruleset or thread
  (a TARGET too) is a number or a bound label; root is entry 0, main is thread
  0. An entry may also be an absolute path, which is looked up just before the
  call; one that is not found stands for an entry that is not live.

  A NAME or a PATH is any word, with \\xNN for a byte, \\\\ for a backslash, \\i
  for the round of repeat and \\*N{TEXT} for N times a text; \"\" is empty.

    fresh LEVEL
    create_ruleset [fs=RIGHTS] [net=RIGHTS] [scope=RIGHTS] [size=N] [flags=N]
    create_ruleset hex=BYTES [flags=N]
    close_ruleset RULESET
    add_path_rule RULESET ENTRY RIGHTS [FLAGS]
    add_port_rule RULESET PORT RIGHTS [FLAGS]
    find_policy STOCK SITE NAME
    apply_policy STOCK SITE NAME
    write_policy RULESET NAME [room=N]
    restrict THREAD RULESET [FLAGS]
    layer_rules LAYER
    clone THREAD
    end THREAD
    set_no_new_privs THREAD
    set_admin THREAD ON
    access THREAD ENTRY RIGHTS
    port THREAD PORT RIGHTS
    signal THREAD TARGET
    abstract_socket THREAD TARGET
    create THREAD DIRECTORY KIND NAME
    create THREAD PATH KIND
    remove THREAD ENTRY
    link THREAD SOURCE DIRECTORY NAME
    link THREAD SOURCE PATH
    rename THREAD SOURCE DIRECTORY NAME
    rename THREAD SOURCE PATH
    exchange THREAD SOURCE DIRECTORY ENTRY
    exchange THREAD SOURCE PATH
    lookup PATH
    component PATH PLACE
    ask access | port | link | rename | exchange, with the call's arguments
    post SLOT THREAD ENTRY RIGHTS
    turn
    slot SLOT
    fresh_queue
    log ROOM [USED]
    log none
    cut BYTES
    written
    restart
    replay [bytes=TEXT]
    poke_name ENTRY NAME [COUNT]
    poke TABLE CELL VALUE [COUNT STEP RISE]

  KIND: regular directory character block fifo socket symlink, or a number.
  ON: on, off or a number.
  A PATH in place of a directory and a name, or of a directory and an entry:
  its last component is the name or the entry, what stands before it the
  directory.
  STOCK, SITE: a policy file by its name, from where the scenario stands, its
  bytes=TEXT with the escapes of a NAME, or none for an empty one.
  SLOT: a number; the queue has 0 to 7.
  log starts a log of changes of the tree, with room for ROOM bytes of which
  USED are used, and keeps the tables of that moment; restart puts them back.
  written shows what stands in the log, cut cuts it, and replay makes its
  changes, or those of some bytes, again and answers how many bytes it dropped.
  TABLE: system entries rulesets layers pool threads names, or of the queue
  requests states answers cursor. COUNT, STEP and RISE make a run of writes: how
  many, how many cells from one to the next, and how much each value is above
  the last. poke_name writes the row of an entry's name, or COUNT rows from
  there on, with \\i counting from 1.

Rights: a number, none, or names joined by + in any letter case
  files   execute write_file read_file read_dir remove_dir remove_file
          make_char make_dir make_reg make_sock make_fifo make_block make_sym
          refer truncate ioctl_dev                                (bits 0 to 15)
  ports   bind_tcp connect_tcp                                    (bits 0 and 1)
  scopes  abstract_unix_socket signal                             (bits 0 and 1)

  A right that the level does not know is bad input in create_ruleset, unless
  size=N or hex= asks for the raw call.

Exit codes
  0   every answer is as its line expects; what was asked has the answer no:
      nothing found, no difference
  1   some answer differs: a refusal on a line without => among them; or
      something is found, or different; neither file of policy find has the
      name, or policy export is refused
  2   bad input: FILE:LINE: what was found; what was expected; of a policy file
      FILE: byte PLACE: its bytes there, and the same
  3   FILE cannot be read, or the output cannot be written
  4   a search ended undecided
  64  wrong usage

Example: a thread that may read a folder cannot write in it
  create main /docs directory                   => new 1
  create main /docs/page regular                => new 2
  create_ruleset fs=read_file+write_file -> rs  => new 0
  add_path_rule rs /docs read_file              => 0
  set_no_new_privs main                         => 0
  restrict main rs                              => 0
  access main /docs/page read_file              => 0
  access main /docs/page write_file             => EACCES
";
