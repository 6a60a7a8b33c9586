//! What the parts share: an engine over a new store, the pieces of a script, and what an engine
//! shows.

use catalog_core::encode_def;
use memory_store::{MemoryStore, open_in_memory};
use period_core::{Moment, Refusal, VersionRow};
use script_engine::{Engine, Outcome, run_script, write_report};
use sql_front::{Span, cut, lex, parse};
use sql_statements::{Statement, Token};
use sqlite::{Alter, Connection};
use std::alloc::Global;
use std::test::Fail;

pub type InMemory = Engine<MemoryStore>;

/// The engine over the store of a connection.
pub fn opened<S: Alter + Drop>(
    alloc: Global,
    connection: Connection<S>,
) -> Result<Engine<S>, Fail> {
    match Engine::open(alloc, connection) {
        Ok(engine) => Ok(engine),
        Err((refusal, _connection)) => Err(refusal)?,
    }
}

/// An engine over a new store in memory.
pub fn new_engine(alloc: Global) -> Result<InMemory, Fail> {
    opened(alloc, open_in_memory(alloc)?)
}

/// A script, its tokens, and which of them each piece has.
#[derive(Drop)]
pub struct Script<'a> {
    pub text: &'a str,
    pub tokens: Vec<Token<'a>>,
    pub spans: Vec<Span>,
}

impl<'a> Script<'a> {
    pub fn of(alloc: Global, text: &'a str) -> Result<Script<'a>, Fail> {
        let tokens = lex(alloc, text)?;
        let spans = cut(alloc, tokens.as_slice())?;
        Ok(Script {
            text,
            tokens,
            spans,
        })
    }

    pub fn len(&self) -> usize {
        self.spans.len()
    }

    /// The statement of a piece.
    pub fn statement(&self, alloc: Global, piece: usize) -> Result<Statement, Refusal> {
        let span = &self.spans.as_slice()[piece];
        let tokens = &self.tokens.as_slice()[span.start..span.end];
        parse(alloc, self.text, tokens)
    }

    /// Parses a piece and runs it.
    pub fn execute<S: Alter>(
        &self,
        alloc: Global,
        engine: &mut Engine<S>,
        piece: usize,
    ) -> Result<Outcome, Refusal> {
        let statement = self.statement(alloc, piece)?;
        let outcome = engine.execute(alloc, &statement);
        drop(statement);
        outcome
    }

    /// Runs the first pieces, and says nothing of what they give.
    pub fn execute_first<S: Alter>(&self, alloc: Global, engine: &mut Engine<S>, count: usize) {
        for piece in 0..count {
            let _ = self.execute(alloc, engine, piece);
        }
    }
}

/// The report of results.
pub fn report_of(alloc: Global, results: &[Result<Outcome, Refusal>]) -> Result<Vec<u8>, Fail> {
    let mut report = Vec::new(alloc);
    write_report(alloc, &mut report, results)?;
    Ok(report)
}

/// The report of a script over a new store in memory.
pub fn plain_report(alloc: Global, text: &str) -> Result<Vec<u8>, Fail> {
    let results = run_script(alloc, open_in_memory(alloc)?, text.as_bytes())?;
    report_of(alloc, results.as_slice())
}

/// What an engine shows: its clock, the bytes of its tables' definitions, and the versions of each.
#[derive(Drop)]
pub struct Shown {
    clock: Moment,
    definitions: Vec<Vec<u8>>,
    versions: Vec<Vec<VersionRow>>,
}

impl Shown {
    pub fn of<S: Alter>(alloc: Global, engine: &mut Engine<S>) -> Result<Shown, Fail> {
        let mut definitions = Vec::new(alloc);
        let mut versions = Vec::new(alloc);
        for number in 0..engine.catalog().len() {
            let number = number as u8 + 1;
            let definition = engine.catalog().def(number).ok_or("no definition")?;
            definitions.push(encode_def(alloc, definition)?)?;
            versions.push(engine.rows(alloc, number)?)?;
        }
        Ok(Shown {
            clock: engine.clock(),
            definitions,
            versions,
        })
    }

    /// Whether all is the same, value by value.
    pub fn is(&self, other: &Shown) -> bool {
        if self.clock != other.clock || self.definitions.len() != other.definitions.len() {
            return false;
        }
        for (mine, its) in self.definitions.iter().zip(other.definitions.as_slice()) {
            if mine.as_slice() != its.as_slice() {
                return false;
            }
        }
        for (mine, its) in self.versions.iter().zip(other.versions.as_slice()) {
            if mine.as_slice() != its.as_slice() {
                return false;
            }
        }
        true
    }
}
