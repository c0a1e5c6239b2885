//! Rulesets, built step by step.
use crate::errno::Errno;
use crate::numbers::{Entry, Layer, Ruleset, Thread};
use crate::rights::{AccessFs, AccessNet, Scope};
use crate::rows::Attribute;
use crate::tables::Tables;

impl Tables {
    /// Starts a ruleset.
    ///
    /// ```
    /// # use skeinrabbit::*;
    /// let level = Level::LATEST;
    /// let mut tables = Tables::new(level)?;
    /// tables.set_no_new_privs(Thread::MAIN)?;
    /// let layer = tables
    ///     .ruleset()
    ///     .handle_fs(AccessFs::from_all(level))
    ///     .handle_net(AccessNet::from_all(level))
    ///     .scope(Scope::from_all(level))
    ///     .create()?
    ///     .add_path(Entry::ROOT, AccessFs::from_read(level))?
    ///     .add_port(8080, AccessNet::BIND_TCP)?
    ///     .restrict(Thread::MAIN)?;
    /// assert_eq!(tables.layer_rules(layer)?.len(), 2);
    /// assert_eq!(tables.open_rulesets().count(), 0);
    /// # Ok::<(), Errno>(())
    /// ```
    pub fn ruleset(&mut self) -> RulesetBuilder<'_> {
        RulesetBuilder {
            tables: self,
            attribute: Attribute::default(),
        }
    }
}

/// What a ruleset is to handle; see [`Tables::ruleset`].
///
/// One that is not created denies nothing, and the compiler warns of it:
///
/// ```compile_fail
/// #![deny(unused_must_use)]
/// # use skeinrabbit::*;
/// let mut tables = Tables::new(Level::LATEST)?;
/// tables.ruleset().handle_fs(AccessFs::READ_FILE);
/// # Ok::<(), Errno>(())
/// ```
#[derive(Debug)]
#[must_use = "no ruleset is open before `create`, and no thread is restricted before `restrict`"]
pub struct RulesetBuilder<'t> {
    tables: &'t mut Tables,
    attribute: Attribute,
}

impl<'t> RulesetBuilder<'t> {
    /// Handles these rights at the file system too.
    pub fn handle_fs(mut self, rights: AccessFs) -> Self {
        self.attribute.fs |= rights;
        self
    }

    /// Handles these rights at ports too.
    pub fn handle_net(mut self, rights: AccessNet) -> Self {
        self.attribute.net |= rights;
        self
    }

    /// Asks for these scopes too.
    pub fn scope(mut self, scopes: Scope) -> Self {
        self.attribute.scope |= scopes;
        self
    }

    /// Opens the ruleset, as [`Tables::create_ruleset`] does with all 24 bytes of the attribute: what the level does not know
    /// is refused, never dropped.
    ///
    /// ```
    /// # use skeinrabbit::*;
    /// let mut tables = Tables::new(Level::new(3))?;
    /// let refused = tables.ruleset().handle_net(AccessNet::ALL).create();
    /// assert_eq!(refused.err(), Some(Errno::E2BIG));
    /// # Ok::<(), Errno>(())
    /// ```
    pub fn create(self) -> Result<OpenRuleset<'t>, Errno> {
        let ruleset = self.tables.create_ruleset(&self.attribute.to_bytes(), 0)?;
        Ok(OpenRuleset {
            tables: self.tables,
            ruleset,
            kept: false,
        })
    }
}

/// A ruleset that is closed when this value goes, unless it is kept.
///
/// One that restricts no thread denies nothing, and the compiler warns of it:
///
/// ```compile_fail
/// #![deny(unused_must_use)]
/// # use skeinrabbit::*;
/// let mut tables = Tables::new(Level::LATEST)?;
/// tables.ruleset().handle_fs(AccessFs::READ_FILE).create()?;
/// # Ok::<(), Errno>(())
/// ```
///
/// The same with its end is taken without a word:
///
/// ```
/// #![deny(unused_must_use)]
/// # use skeinrabbit::*;
/// let mut tables = Tables::new(Level::LATEST)?;
/// # tables.set_no_new_privs(Thread::MAIN)?;
/// tables.ruleset().handle_fs(AccessFs::READ_FILE).create()?.restrict(Thread::MAIN)?;
/// # Ok::<(), Errno>(())
/// ```
#[derive(Debug)]
#[must_use = "a ruleset restricts no thread before `restrict`, and this one is closed when it goes"]
pub struct OpenRuleset<'t> {
    tables: &'t mut Tables,
    ruleset: Ruleset,
    kept: bool,
}

impl OpenRuleset<'_> {
    /// The ruleset's number.
    pub fn number(&self) -> Ruleset {
        self.ruleset
    }

    /// Adds a rule, as [`Tables::add_path_rule`] does. A refusal closes the ruleset.
    pub fn add_path(self, entry: Entry, rights: AccessFs) -> Result<Self, Errno> {
        self.tables.add_path_rule(self.ruleset, entry, rights, 0)?;
        Ok(self)
    }

    /// Adds a rule, as [`Tables::add_port_rule`] does. A refusal closes the ruleset.
    pub fn add_port(self, port: u64, rights: AccessNet) -> Result<Self, Errno> {
        self.tables.add_port_rule(self.ruleset, port, rights, 0)?;
        Ok(self)
    }

    /// Gives a thread a layer of it, as [`Tables::restrict`] does, and answers the layer. The ruleset is closed then, after a
    /// refusal too; [`OpenRuleset::keep`] is for one that restricts several threads.
    ///
    /// ```
    /// # use skeinrabbit::*;
    /// let mut tables = Tables::new(Level::LATEST)?;
    /// let refused = tables.ruleset().handle_fs(AccessFs::REFER).create()?.restrict(Thread::MAIN);
    /// assert_eq!(refused, Err(Errno::EPERM));
    /// tables.set_no_new_privs(Thread::MAIN)?;
    /// let layer = tables.ruleset().handle_fs(AccessFs::REFER).create()?.restrict(Thread::MAIN)?;
    /// assert_eq!(layer, Layer::new(0));
    /// assert_eq!(tables.open_rulesets().count(), 0);
    /// # Ok::<(), Errno>(())
    /// ```
    pub fn restrict(self, thread: Thread) -> Result<Layer, Errno> {
        self.tables.restrict(thread, self.ruleset, 0)
    }

    /// Leaves the ruleset open and gives its number.
    ///
    /// ```
    /// # use skeinrabbit::*;
    /// let mut tables = Tables::new(Level::LATEST)?;
    /// tables.set_no_new_privs(Thread::MAIN)?;
    /// let worker = tables.clone_thread(Thread::MAIN)?;
    /// let ruleset = tables.ruleset().handle_fs(AccessFs::REFER).create()?.keep();
    /// for thread in [Thread::MAIN, worker] {
    ///     tables.restrict(thread, ruleset, 0)?;
    /// }
    /// assert_eq!(tables.close_ruleset(ruleset), Ok(()));
    /// # Ok::<(), Errno>(())
    /// ```
    pub fn keep(mut self) -> Ruleset {
        self.kept = true;
        self.ruleset
    }
}

impl Drop for OpenRuleset<'_> {
    fn drop(&mut self) {
        if !self.kept {
            // Nobody is left to be told of a refusal.
            let _ = self.tables.close_ruleset(self.ruleset);
        }
    }
}
