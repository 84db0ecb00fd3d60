//! Filtersets of cargo-nextest, parsed and evaluated by a library that is proved.
//!
//! The names are those of the crate `nextest-filtering` where they can be had. What differs: a [`ParseContext`] is made of
//! the JSON of `cargo metadata`, and has the default filter; so there is no `EvalContext`. Calls return an error if there is
//! not enough memory. A lookup of groups gives a test's group by its name.
//!
//! ```
//! use nextest_filtering_proved::{BinaryQuery, BuildPlatform, Filterset, FiltersetKind, KnownGroups, ParseContext, TestQuery};
//!
//! # fn main() -> Result<(), nextest_filtering_proved::FiltersetError> {
//! let record = br#"{"filtersets": [], "packages": [
//!     {"id": "lexer", "name": "lexer", "targets": [{"kind": "lib", "name": "lexer"}]}]}"#;
//! let context = ParseContext::from_record(record)?;
//! let text = "package(lexer) and not test(~slow)";
//! let filterset = Filterset::parse(text.to_owned(), &context, FiltersetKind::Test, &KnownGroups::default())?;
//! let binary_query = BinaryQuery {
//!     package_id: "lexer",
//!     binary_id: "lexer",
//!     binary_name: "lexer",
//!     kind: "lib",
//!     platform: BuildPlatform::Target,
//! };
//! assert_eq!(filterset.matches_binary(&binary_query)?, None);
//! assert!(filterset.matches_test(&TestQuery { binary_query, test_name: "tests::quick" })?);
//! # Ok(())
//! # }
//! ```
//!
//! No two values share anything, so each is `Send`. None is `Sync`: parse a filterset once for each thread.

mod errors;
mod ffi;

pub use errors::{FiltersetError, FiltersetParseErrors, ParseSingleError, SourceSpan};

use ffi::RawHandle;
use std::cell::RefCell;
use std::collections::BTreeSet;
use std::fmt;

/// The group of tests that are in no other.
pub const GLOBAL_TEST_GROUP: &str = "@global";

/// How many levels of parentheses and negations a text may have, if [`ParseContext::set_depth`] says nothing else. That fits
/// a thread with a stack of 1 MiB.
pub const DEPTH_LIMIT: usize = 256;

/// What a filterset is for.
#[derive(Clone, Copy, Debug, PartialEq, Eq)]
pub enum FiltersetKind {
    /// Picks tests. Only this kind may have `group(..)`.
    Test = 0,
    /// Picks the binaries of an archive.
    TestArchive = 1,
    /// Picks the tests of an override.
    OverrideFilter = 2,
    /// Replaces `default()`, which it must not have itself.
    DefaultFilter = 3,
}

/// The platform that a binary is built for.
#[derive(Clone, Copy, Debug, PartialEq, Eq)]
pub enum BuildPlatform {
    Target = 0,
    Host = 1,
}

/// The custom groups that filtersets may name. `@global` is always a group.
#[derive(Clone, Debug, Default, PartialEq, Eq)]
pub struct KnownGroups {
    pub custom_groups: BTreeSet<String>,
}

/// A test binary.
#[derive(Clone, Copy, Debug, PartialEq, Eq)]
pub struct BinaryQuery<'a> {
    pub package_id: &'a str,
    pub binary_id: &'a str,
    pub binary_name: &'a str,
    pub kind: &'a str,
    pub platform: BuildPlatform,
}

/// A test of a binary.
#[derive(Clone, Copy, Debug, PartialEq, Eq)]
pub struct TestQuery<'a> {
    pub binary_query: BinaryQuery<'a>,
    pub test_name: &'a str,
}

/// A lookup of the groups of tests.
pub trait GroupLookup {
    /// Returns the name of the test's group.
    fn group_of<'a>(&'a self, test: &TestQuery<'a>) -> &'a str;
}

/// Every test is in `@global`.
#[derive(Clone, Copy, Debug, Default)]
pub struct NoGroups;

impl GroupLookup for NoGroups {
    fn group_of<'a>(&'a self, _test: &TestQuery<'a>) -> &'a str {
        GLOBAL_TEST_GROUP
    }
}

/// A handle, which is freed when it is dropped. Every call has it alone.
struct Handle(RefCell<RawHandle>);

impl Handle {
    const fn empty() -> Handle {
        Handle(RefCell::new(RawHandle::empty()))
    }

    fn with<R>(&self, call: impl FnOnce(&mut RawHandle) -> R) -> R {
        call(&mut self.0.borrow_mut())
    }
}

impl Drop for Handle {
    fn drop(&mut self) {
        // (a workspace is freed by either function)
        unsafe { ffi::filterset_free(self.0.get_mut()) }
    }
}

impl fmt::Debug for Handle {
    fn fmt(&self, f: &mut fmt::Formatter<'_>) -> fmt::Result {
        f.write_str("Handle")
    }
}

/// Returns the version of the library: its major, minor and patch number.
pub fn version() -> (u32, u32, u32) {
    let number = unsafe { ffi::filterset_version() };
    (number / 1_000_000, number / 1_000 % 1_000, number % 1_000)
}

fn check(status: u8) -> Result<(), FiltersetError> {
    match status {
        ffi::OK => Ok(()),
        ffi::OUT_OF_MEMORY => Err(FiltersetError::OutOfMemory),
        status => Err(FiltersetError::Status(status)),
    }
}

/// Returns the text that a call writes into the room that it is given.
fn written(mut call: impl FnMut(&mut [u8], &mut usize) -> u8) -> Result<String, FiltersetError> {
    let mut room = vec![0; 256];
    loop {
        let mut length = 0;
        check(call(&mut room, &mut length))?;
        if length <= room.len() {
            room.truncate(length);
            return Ok(String::from_utf8(room).expect("the library writes UTF-8"));
        }
        room.resize(length, 0);
    }
}

/// Returns the faults that the handle holds.
fn faults_of(handle: &Handle, input: &str) -> Result<FiltersetParseErrors, FiltersetError> {
    let count = handle.with(|raw| unsafe { ffi::filterset_fault_count(raw) });
    let mut errors = Vec::with_capacity(count);
    for index in 0..count {
        let mut span = ffi::Span::default();
        check(handle.with(|raw| unsafe { ffi::filterset_fault_span(raw, index, &mut span) }))?;
        let text = |part: u8| {
            written(|room, length| {
                handle.with(|raw| unsafe {
                    ffi::filterset_fault_text(raw, index, part, room.as_mut_ptr(), room.len(), length)
                })
            })
        };
        errors.push(ParseSingleError {
            code: text(0)?,
            span: SourceSpan { offset: span.offset, length: span.length },
            label: text(1)?,
            help: text(2)?,
        });
    }
    Ok(FiltersetParseErrors { input: input.to_owned(), errors })
}

/// What filtersets are parsed against: packages, test binaries, and the default filter.
#[derive(Debug)]
pub struct ParseContext {
    handle: Handle,
}

impl ParseContext {
    /// Makes a context of what `cargo metadata --format-version 1` writes. Its default filter is `all()`.
    pub fn from_cargo_metadata(metadata: &[u8]) -> Result<ParseContext, FiltersetError> {
        ParseContext::made(|raw| unsafe {
            ffi::filterset_workspace_from_cargo_metadata(metadata.as_ptr(), metadata.len(), raw)
        })
    }

    /// Makes a context of the packages of a record. Its default filter is `all()`.
    pub fn from_record(record: &[u8]) -> Result<ParseContext, FiltersetError> {
        ParseContext::made(|raw| unsafe { ffi::filterset_workspace_from_record(record.as_ptr(), record.len(), raw) })
    }

    fn made(call: impl FnOnce(&mut RawHandle) -> u8) -> Result<ParseContext, FiltersetError> {
        let handle = Handle::empty();
        match handle.with(call) {
            ffi::OK => Ok(ParseContext { handle }),
            ffi::OUT_OF_MEMORY => Err(FiltersetError::OutOfMemory),
            _ => Err(FiltersetError::NotAWorkspace),
        }
    }

    /// Sets how many levels of parentheses and negations a text may have that is parsed from then on; 0 if there is no
    /// limit.
    pub fn set_depth(&mut self, levels: usize) -> Result<(), FiltersetError> {
        check(self.handle.with(|raw| unsafe { ffi::filterset_workspace_set_depth(raw, levels) }))
    }

    /// Sets the default filter of filtersets that are parsed from then on.
    pub fn set_default_filter(&mut self, input: &str) -> Result<(), FiltersetError> {
        let faults = Handle::empty();
        let status = self.handle.with(|raw| {
            faults.with(|into| unsafe {
                ffi::filterset_workspace_set_default_filter(raw, input.as_ptr(), input.len(), into)
            })
        });
        match status {
            ffi::REJECTED => Err(FiltersetError::Faults(faults_of(&faults, input)?)),
            status => check(status),
        }
    }

    fn set_groups(&self, groups: &KnownGroups) -> Result<(), FiltersetError> {
        let names: Vec<ffi::Text<'_>> = groups.custom_groups.iter().map(|it| it.as_str().into()).collect();
        check(self.handle.with(|raw| unsafe { ffi::filterset_workspace_set_groups(raw, names.as_ptr(), names.len()) }))
    }
}

/// A filterset that was parsed. Displays as a text that parses to the same filterset.
#[derive(Debug)]
pub struct Filterset {
    handle: Handle,
}

impl Filterset {
    /// Parses a filterset. A rejected text is returned with its faults.
    pub fn parse(
        input: String,
        cx: &ParseContext,
        kind: FiltersetKind,
        known_groups: &KnownGroups,
    ) -> Result<Filterset, FiltersetError> {
        cx.set_groups(known_groups)?;
        let handle = Handle::empty();
        let status = cx.handle.with(|raw| {
            handle.with(|into| unsafe { ffi::filterset_parse(raw, input.as_ptr(), input.len(), kind as u8, into) })
        });
        match status {
            ffi::REJECTED => Err(FiltersetError::Faults(faults_of(&handle, &input)?)),
            status => {
                check(status)?;
                Ok(Filterset { handle })
            }
        }
    }

    /// Returns whether the filterset matches all tests of a binary (`Some(true)`) or none (`Some(false)`), or `None` if that
    /// depends on the tests.
    pub fn matches_binary(&self, query: &BinaryQuery<'_>) -> Result<Option<bool>, FiltersetError> {
        let mut answer = 0;
        let binary = binary_of(query);
        check(self.handle.with(|raw| unsafe { ffi::filterset_matches_binary(raw, &binary, &mut answer) }))?;
        Ok(match answer {
            0 => Some(false),
            1 => Some(true),
            _ => None,
        })
    }

    /// Returns whether the filterset matches a test that is in no custom group.
    pub fn matches_test(&self, query: &TestQuery<'_>) -> Result<bool, FiltersetError> {
        self.matches_test_with_groups(query, &NoGroups)
    }

    /// Returns whether the filterset matches a test. The lookup gives its group.
    pub fn matches_test_with_groups(
        &self,
        query: &TestQuery<'_>,
        groups: &dyn GroupLookup,
    ) -> Result<bool, FiltersetError> {
        let mut answer = 0;
        let binary = binary_of(&query.binary_query);
        let test = ffi::Test { name: query.test_name.into(), group: groups.group_of(query).into() };
        check(self.handle.with(|raw| unsafe { ffi::filterset_matches_test(raw, &binary, &test, &mut answer) }))?;
        Ok(answer == 1)
    }

    /// Returns whether the filterset matches each of the binary's tests that have these names. Much faster than a call for
    /// each test.
    pub fn matches_tests(
        &self,
        binary_query: &BinaryQuery<'_>,
        names: &[&str],
        groups: &dyn GroupLookup,
    ) -> Result<Vec<bool>, FiltersetError> {
        let queries: Vec<TestQuery<'_>> =
            names.iter().map(|name| TestQuery { binary_query: *binary_query, test_name: name }).collect();
        let tests: Vec<ffi::Test<'_>> = queries
            .iter()
            .map(|query| ffi::Test { name: query.test_name.into(), group: groups.group_of(query).into() })
            .collect();
        let binary = binary_of(binary_query);
        let mut answers = vec![0u8; tests.len()];
        check(self.handle.with(|raw| unsafe {
            ffi::filterset_matches_tests(raw, &binary, tests.as_ptr(), tests.len(), answers.as_mut_ptr(), answers.len())
        }))?;
        Ok(answers.into_iter().map(|answer| answer == 1).collect())
    }

    /// Returns whether the filterset has a `group(..)`. If it has none, the groups of tests do not matter.
    pub fn has_group_matchers(&self) -> Result<bool, FiltersetError> {
        let mut answer = 0;
        check(self.handle.with(|raw| unsafe { ffi::filterset_needs_groups(raw, &mut answer) }))?;
        Ok(answer == 1)
    }

    /// Returns a text that parses to the same filterset.
    pub fn print(&self) -> Result<String, FiltersetError> {
        written(|room, length| {
            self.handle
                .with(|raw| unsafe { ffi::filterset_print(raw, room.as_mut_ptr(), room.len(), length) })
        })
    }
}

impl fmt::Display for Filterset {
    fn fmt(&self, f: &mut fmt::Formatter<'_>) -> fmt::Result {
        f.write_str(&self.print().map_err(|_| fmt::Error)?)
    }
}

fn binary_of<'a>(query: &BinaryQuery<'a>) -> ffi::Binary<'a> {
    ffi::Binary {
        package_id: query.package_id.into(),
        binary_id: query.binary_id.into(),
        name: query.binary_name.into(),
        kind: query.kind.into(),
        platform: query.platform as u8,
    }
}
