//! A store in a file: whether it is opened, and what a script over it reports.

use period_core::Refusal;
use script_engine::{Engine, Outcome, run, write_report};
use sqlite::{Connection, File, FileStore, Options, Unknown};
use std::test::Fail;

// What a run of a script gives: its results and the engine, or the refusal with the connection.
type Ran = Result<
    (Vec<Result<Outcome, Refusal>>, Engine<FileStore<File>>),
    (Refusal, Connection<FileStore<File>>),
>;

// The connection to a file. With so few pages in memory it is opened in a tenth of the time.
fn connection_to(rt: &HostRuntime, file: &str) -> Option<Connection<FileStore<File>>> {
    let files = match sqlite_std_file::open(rt, file, Unknown) {
        Ok(files) => files,
        Err(_) => return None,
    };
    let mut options = Options::new(1);
    options.cache_pages = 24;
    options.spill_pages = 24;
    match Connection::open_files(rt.alloc(), files, options) {
        Ok(connection) => Some(connection),
        Err((_error, _left)) => None,
    }
}

/// Runs a script over the store in a file. Prints `unopened`, where `sqlite` doesn't open the file;
/// `refused NUMBER`, where the engine refuses the store; and else `opened` and the report. At last
/// it closes the file, where that is asked.
pub fn run_over(rt: &HostRuntime, file: &str, script: &str, is_closed: bool) -> Result<(), Fail> {
    let alloc = rt.alloc();
    let Some(connection) = connection_to(rt, file) else {
        println!(rt; "unopened")?;
        return Ok(());
    };
    let ran: Ran = run(alloc, connection, script.as_bytes());
    let connection = match ran {
        Ok((results, engine)) => {
            println!(rt; "opened")?;
            write_report(alloc, &mut rt.stdout(), results.as_slice())?;
            engine.close()
        }
        Err((refusal, connection)) => {
            let number = refusal.code();
            println!(rt; "refused {number}")?;
            connection
        }
    };
    if is_closed {
        connection.close()?;
    }
    Ok(())
}
