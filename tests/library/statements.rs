//! Tokens, the pieces between semicolons, statements, and scripts that are only checked.

use crate::fixtures::statement;
use period_core::Refusal;
use script_engine::{check_script, write_check};
use sql_front::{LexFault, Span, cut, cut_spans, lex, lex_spans, parse, tokens_at};
use sql_statements::{Statement, StatementForm, TokenKind};
use std::alloc::Global;
use std::test::Fail;

#[test]
fn tokens(rt: HostRuntime) -> Result<(), Fail> {
    let found = lex(rt.alloc(), "AT -- a comment\n'it''s' <> 12;")?;
    let wanted = [
        (TokenKind::Word, "AT", 0),
        (TokenKind::Text, "'it''s'", 16),
        (TokenKind::Symbol, "<>", 24),
        (TokenKind::Number, "12", 27),
        (TokenKind::Symbol, ";", 29),
    ];
    assert_eq!(rt; found.len(), wanted.len());
    for (token, (kind, text, start)) in found.iter().zip(wanted) {
        assert_eq!(rt; token.kind, kind, "of {text}");
        assert_eq!(rt; token.text, text);
        assert_eq!(rt; token.start, start, "of {text}");
        assert_eq!(rt; token.end, start + text.len(), "of {text}");
    }
    let open = lex(rt.alloc(), "SELECT * FROM EMP WHERE N = 'ab");
    assert!(rt; matches!(open, Err(LexFault::BadToken(28))));
    Ok(())
}

#[test]
fn pieces(rt: HostRuntime) -> Result<(), Fail> {
    let alloc = rt.alloc();
    let found = lex(alloc, "SELECT 1; SELECT * FROM T;; AT")?;
    let wanted = [
        Span { start: 0, end: 2 },
        Span { start: 3, end: 7 },
        Span { start: 9, end: 10 },
    ];
    assert!(rt; cut(alloc, found.as_slice())?.as_slice() == wanted.as_slice());
    Ok(())
}

#[test]
fn places(rt: HostRuntime) -> Result<(), Fail> {
    let alloc = rt.alloc();
    let text = "\u{feff}SELECT 1; -- a comment; 'text'\nSELECT N FROM T WHERE N >= 'it''s;';; AT";
    let tokens = lex(alloc, text)?;
    let spans = lex_spans(alloc, text)?;
    assert_eq!(rt; spans.len(), 14);
    let found = tokens_at(alloc, text, spans.as_slice())?;
    assert_eq!(rt; found.len(), tokens.len());
    for (one, other) in found.iter().zip(tokens.iter()) {
        assert_eq!(rt; one.kind, other.kind, "of {}", other.text);
        assert_eq!(rt; one.text, other.text);
        assert_eq!(rt; one.start, other.start, "of {}", other.text);
        assert_eq!(rt; one.end, other.end, "of {}", other.text);
    }
    let wanted = [
        Span { start: 0, end: 2 },
        Span { start: 3, end: 11 },
        Span { start: 13, end: 14 },
    ];
    assert!(rt; cut_spans(alloc, text, spans.as_slice())?.as_slice() == wanted.as_slice());
    assert!(rt; matches!(lex_spans(alloc, "AT 'ab"), Err(LexFault::BadToken(3))));
    Ok(())
}

// The refusal of a text, if it is no statement.
fn refused(alloc: Global, text: &str) -> Result<Option<Refusal>, Fail> {
    let tokens = lex(alloc, text)?;
    match parse(alloc, text, tokens.as_slice()) {
        Ok(statement) => {
            drop(statement);
            Ok(None)
        }
        Err(refusal) => Ok(Some(refusal)),
    }
}

#[test]
fn refusals(rt: HostRuntime) -> Result<(), Fail> {
    let texts = [
        ("", Some(Refusal::Syntax)),
        ("VALIDTIME SELECT ENO FROM EMP", Some(Refusal::Syntax)),
        (
            "INSERT INTO T VALUES (DATE '2023-02-29'",
            Some(Refusal::Syntax),
        ),
        (
            "INSERT INTO T VALUES (DATE '2023-02-29')",
            Some(Refusal::BadDate),
        ),
        (
            "AT TIMESTAMP '2024-01-01 24:00:00'",
            Some(Refusal::BadMoment),
        ),
        (
            "INSERT INTO T VALUES (9223372036854775808)",
            Some(Refusal::NumberRange),
        ),
        ("INSERT INTO T VALUES (-9223372036854775808)", None),
    ];
    for (text, wanted) in texts {
        assert_eq!(rt; refused(rt.alloc(), text)?, wanted, "of {text}");
    }
    Ok(())
}

// Whether a statement is a stored query of the table of this name.
fn shows(statement: &Statement, name: &str) -> bool {
    match statement.form() {
        StatementForm::Stored(query) => query.table.as_text().as_str() == name,
        _ => false,
    }
}

#[test]
fn names_in_upper_case(rt: HostRuntime) -> Result<(), Fail> {
    let text = "select * from t where p immediately precedes \
        period (date '2024-01-01', date '2024-02-01')";
    let statement = statement(rt.alloc(), text)?;
    let is_shown = shows(&statement, "T");
    drop(statement);
    assert!(rt; is_shown);
    Ok(())
}

#[test]
fn checked(rt: HostRuntime) -> Result<(), Fail> {
    let alloc = rt.alloc();
    let results = check_script(alloc, b"SELECT 1; SELECT * FROM T;;")?;
    let mut report = Vec::new(alloc);
    write_check(alloc, &mut report, results.as_slice())?;
    assert!(rt; report.as_slice() == b"refused,1,10,Syntax,\nchecked,2,1\n".as_slice());
    Ok(())
}
