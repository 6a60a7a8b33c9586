"""Common slips in statements without the right syntax.

A pattern is over the tokens with a space after each: words in upper case, 0 for a number, ' for a
text; and `@ ` is before the first token that no statement can have there. The group `out` (else
nothing, at that place) is replaced by `put`, a template or a call of rewriting.py. In `put` and in
what to do, {out} and the other groups are the statement's own tokens, {put} is what is put there,
{period} the period of the statement's table or else EP. If `put` is None nothing is put. A
slip is shown only if the statement with the mend continues past it; `expects` is one of the tokens
that could be there.

No mend of an UPDATE or a DELETE may change more than its words ask. So these have slips of their
own, CHANGES, and of the rest only those whose mends ask the same.
"""
import re
from collections.abc import Callable
from typing import Any, NamedTuple, Optional, Union

from bitemporal_tools.sql.literals import FIRST_MOMENT, FOREVER

from . import rewriting
from .texts import recipe

# The result of a call of rewriting.py: what is put, or a pair of this and of what is shown of it.
Rewriting = Callable[[rewriting.Groups, rewriting.Tables], Union[str, tuple[Optional[str], str]]]


class Slip(NamedTuple):
    """A pattern, what is put and what to do; what has to be expected, and whether it is a slip in a
    change too."""
    pattern: re.Pattern[str]
    put: Union[str, Rewriting, None]
    what: str
    expects: str
    in_changes: bool


NAME = r"[A-Z_]\w*"
COLUMN = rf"{NAME} (?:\. {NAME} )?"
SET_OPERATOR = "UNION|EXCEPT|INTERSECT"
LITERAL = r"(?:[-+] )?0 |' |DATE ' "
OPERAND = rf"(?:{LITERAL}|{COLUMN})"
INTEGER_TYPES = "INT|INT2|INT4|INT8|BIGINT|SMALLINT|TINYINT|MEDIUMINT|SERIAL|BIGSERIAL"
TEXT_TYPES = "TEXT|STRING|CHAR|NCHAR|NVARCHAR|VARCHAR2|CLOB|BPCHAR"
NUMBER_TYPES = "NUMERIC|DECIMAL|DEC|NUMBER|FLOAT|REAL|DOUBLE PRECISION|DOUBLE|MONEY"
OTHER_TYPES = "TIME|DATETIME|TIMESTAMPTZ|INTERVAL|UUID|JSON|JSONB|BLOB|BYTEA|VARBINARY|BINARY"
WINDOW = (r"FOR SYSTEM_TIME (?:AS OF TIMESTAMP ' |FROM TIMESTAMP ' TO TIMESTAMP ' "
          r"|BETWEEN TIMESTAMP ' AND TIMESTAMP ' )")
NOW = r"(?:NOW|GETDATE|SYSDATE|CURRENT_TIMESTAMP|CURRENT_DATE|LOCALTIMESTAMP) (?:\( \) )?"
OTHER_DAYS = r"(?:VALID_TIME|APPLICATION_TIME|BUSINESS_TIME) "
SPAN = rf"(?:PERIOD \( DATE ' , DATE ' \) |{COLUMN})"
PREDICATE = (rf"(?:CONTAINS (?:DATE ' |{SPAN})"
             rf"|(?:OVERLAPS|EQUALS|(?:IMMEDIATELY )?(?:PRECEDES|SUCCEEDS)) {SPAN})")
INNER = r"(?:[^()]|\([^()]*\))*?"  # with pairs of parentheses
CUT = ";"  # in the place of `put`: the statement ends before what follows
STATEMENT = (r"(?:CREATE TABLE|INSERT INTO|DELETE FROM|UPDATE \w+ (?:SET|FOR)|AT TIMESTAMP"
             r"|VALIDTIME (?:SELECT|\()) ")
NO_ARITHMETIC = ("Leave out {out}: there is no arithmetic; columns and literals are compared as"
                 " they are.")
A_DATE = "Write DATE before the text of a date: DATE {text}."
CALENDAR = ("Leave out {out}: period predicates are for the WHERE of SELECT * FROM alone. Each row"
            " of an answer has its days; for some days alone, join a table with one row that holds"
            f" on these days: {recipe('An answer for some days alone')}.")
EVER = f"For what was ever or never so see {recipe('Ever and never')}."
NO_SUBQUERY = ("Leave out {out}: there are no subqueries. Where the column is in the other query's"
               " list, join the other table by =; to keep what is not there, write EXCEPT SELECT"
               f" DISTINCT .. FROM .., which applies on each day by itself. {EVER}")
NO_OUTER_JOIN = ("Leave out {out}: joins are inner. The rows without a partner come by UNION:"
                 f" {recipe('Rows without a partner')}.")
CHANGE = r"^(?:UPDATE|DELETE) (?:.* )?"
SIGN = r"(?:=|<>|<|>|<=|>=)"
LEAVE_OUT = "Leave out {out}."
NO_COMMA = "Leave out the comma: a list doesn't end with one."
NO_SHARE = ("There is no {word} in a change: it is of all rows that its WHERE names. Name there"
            " those that are meant.")
FROM_A_FILE = ("Leave it out, and put the rows into INSERTs: tools/load makes these of a CSV file,"
               f" as {recipe('Load an export with corrections')} shows.")

BEGINNINGS = [
    (r"^@ (?P<word>BEGIN|COMMIT|ROLLBACK|START|SAVEPOINT|END) ", None,
     "Leave out {word}: each statement is a transaction of its own."),
    (r"^@ (?:COPY|LOAD DATA|\. IMPORT) ", None, FROM_A_FILE),
    (r"^@ DROP ", None,
     "Leave this statement out: no statement takes a table away. tools/alter makes a new store of a"
     " store, without the table."),
    (r"^@ ALTER ", None,
     "Leave this statement out: a table keeps the columns that it was made with. tools/alter makes"
     " a new store of a store, with other columns and the same history."),
    (r"^(?P<out>@ TRUNCATE (?:TABLE )?)(?P<table>\w+) $", "DELETE FROM",
     "Write DELETE FROM {table}: it takes all rows out that hold now. What was recorded of them is"
     " kept."),
    (r"^@ (?P<out>)\( ", "VALIDTIME", "Begin a query in parentheses with VALIDTIME."),
    (r"^CREATE @ (?!TABLE )(?P<word>\S+ )", None,
     "Write TABLE after CREATE: there are no views, indexes and schemas."),
    (r"^INSERT INTO \w+ (?:\( [^()]*\) )?@ (?:SELECT|VALIDTIME) ", None,
     "Write the rows after VALUES: an INSERT takes no query."),
    (r"^(?P<out>VALIDTIME SELECT (?:DISTINCT )?@ (?:ALL )?\* )FROM (?P<table>\w+) ",
     rewriting.columns_of,
     "Write DISTINCT and the value columns: {put} FROM {table}. (* is for SELECT * FROM table"
     " alone, without VALIDTIME.)"),
    (rf"^(?P<out>SELECT \* )FROM (?P<table>\w+) (?:{WINDOW})?"
     r"@ (?:(?:AS )?(?P<new>(?!LEFT|RIGHT|FULL|CROSS|INNER|JOIN)[A-Z_]\w*) )?"
     rf"(?:JOIN|INNER|LEFT|RIGHT|FULL|CROSS|,|{SET_OPERATOR}) ", rewriting.columns_of,
     "SELECT * is of one table alone. Write VALIDTIME SELECT DISTINCT and the value columns: {put}"
     " FROM {table} .."),
    (r"^(?P<out>SELECT @ (?:DISTINCT |ALL )?)", "VALIDTIME SELECT DISTINCT",
     "Begin a query of columns with VALIDTIME SELECT DISTINCT. Without VALIDTIME there is"
     " SELECT * FROM table alone."),
    (rf"(?:VALIDTIME|{SET_OPERATOR}|DISTINCT|\() SELECT @ (?P<out>(?:ALL )?)", "DISTINCT",
     "Write DISTINCT after each SELECT of a sequenced query."),
    (rf"^(?!@ )(?:\S+ )+@ (?P<word>{STATEMENT})", CUT,
     "With {word} another statement begins: put a semicolon before it."),
    (rf"^AT @ {NOW}", None,
     "Write the moment itself: AT TIMESTAMP '2024-01-01 00:00:00'. The clock goes by AT alone."),
    (r"^AT @ (?=' )", "TIMESTAMP",
     "Write a moment after AT: AT TIMESTAMP '2024-01-01 00:00:00'."),
    (r"^AT @ (?P<out>(?:DATE ' |0 - 0 - 0 ))", "TIMESTAMP '2024-01-01 00:00:00'",
     "Write a moment after AT: AT TIMESTAMP '2024-01-01 00:00:00'."),
]

DEFINITIONS = [
    (r"^CREATE TABLE (?P<out>IF @ NOT EXISTS )", "", "Leave out IF NOT EXISTS."),
    (rf"@ (?P<out>(?P<type>{INTEGER_TYPES})(?: \( 0 \))?(?: UNSIGNED)? )", "INTEGER",
     "Write INTEGER for {type}.", "INTEGER"),
    (rf"@ (?P<out>(?P<type>{TEXT_TYPES}) \( (?P<n>0) \) )", "VARCHAR({n})",
     "Write {put} for {out}.", "INTEGER"),
    (rf"@ (?P<out>(?P<type>{TEXT_TYPES}) )", "VARCHAR(30)",
     "Write VARCHAR(n) for {type}, n from 1 to 1000.", "INTEGER"),
    (rf"@ (?P<out>(?P<type>{NUMBER_TYPES})(?: \( 0(?: , 0)? \))? )", "INTEGER",
     "Write INTEGER for {out}: numbers are whole. Money is kept in its smallest unit, such as"
     " cents: 411700 for 4117.00.", "INTEGER"),
    (r"@ (?P<out>(?P<type>BOOLEAN|BOOL|BIT) )", "INTEGER",
     "There is no type {type}. Write INTEGER, and 1 and 0 for true and false.", "INTEGER"),
    (rf"@ (?P<out>(?P<type>{OTHER_TYPES})(?: \( 0 \))? )", "DATE",
     "There is no type {type}. A column is INTEGER, VARCHAR(n) or DATE, a system column"
     " TIMESTAMP.", "INTEGER"),
    (r"(?:VARCHAR|VARYING) @ ", "(30)", "Write the length: VARCHAR(30)."),
    (r"CHARACTER @ \( ", "VARYING", "Write VARYING after CHARACTER: CHARACTER VARYING(30)."),
    (r"CHARACTER @ ", "VARYING(30)",
     "Write VARYING and the length after CHARACTER: CHARACTER VARYING(30)."),
    (rf"(?P<column>{NAME}) (?:INTEGER|DATE|\)|NULL) @ (?P<out>PRIMARY KEY )", "",
     "Write the key as an element of its own: PRIMARY KEY ({column}, {period} WITHOUT OVERLAPS)."),
    (r"@ (?P<out>(?P<word>AUTO_INCREMENT|AUTOINCREMENT|UNIQUE|NULL) )", "", "Leave out {word}.",
     "NOT"),
    (rf"@ (?P<out>DEFAULT (?:{LITERAL}|NULL |{NAME} (?:\( \) )?))", "", LEAVE_OUT, "NOT"),
    (r"@ (?P<out>CHECK \( (?:[^()]|\([^()]*\))*\) )", "",
     "Leave out CHECK: no constraint but keys and references is checked.", ""),
    (r"@ (?P<out>REFERENCES \w+ (?:\( \w+ \) )?)", "",
     "Write a reference as an element of its own: FOREIGN KEY (DEPT, PERIOD {period}) REFERENCES"
     " DEP (DNO, PERIOD DP).", "NOT"),
    (r"(?P<out>NOT NULL @ GENERATED ALWAYS AS ROW (?P<word>START|END) )",
     "GENERATED ALWAYS AS ROW {word} NOT NULL",
     "Write NOT NULL after GENERATED ALWAYS AS ROW {word}."),
    (r"(?P<out>CONSTRAINT @ \w+ )(?=PRIMARY|FOREIGN|UNIQUE|CHECK)", "",
     "Leave out CONSTRAINT and its name."),
    (r"(?P<out>, (?P<word>UNIQUE|CHECK) @ \( (?:[^()]|\([^()]*\))*\) )", "", "Leave out {word}."),
    (r"(?P<out>, (?P<word>INDEX|KEY) (?:\w+ )?@ (?:\w+ )?\( [^()]*\) )", "",
     "Leave out {word}: there are no indexes."),
    (rf"PRIMARY KEY \( (?P<names>{NAME}(?: , {NAME})*) @ (?=\) )", rewriting.end_of_key,
     "Write the key's columns and then its period: PRIMARY KEY ({names}{put})."),
    (rf"PRIMARY KEY \( (?P<out>(?P<own>{NAME}) @ )WITHOUT ", "ENO, {own}",
     "Write a column before the period: PRIMARY KEY (ENO, {own} WITHOUT OVERLAPS)."),
    (rf"FOREIGN KEY \( (?P<names>{NAME}(?: , {NAME})*) @ (?=\) )", ", PERIOD {period}",
     "Write the period after the columns: FOREIGN KEY ({names}, PERIOD {period})."),
    (rf"REFERENCES (?P<table>\w+) \( (?P<names>{NAME}(?: , {NAME})*) @ (?=\) )", ", PERIOD P",
     "Write the period of {table} after its columns: REFERENCES {table} ({names}, PERIOD ..)."),
    (r"REFERENCES (?P<table>\w+) @ ", "(ENO, PERIOD EP)",
     "Write the key's columns and the period of {table}: REFERENCES {table} (DNO, PERIOD DP)."),
    (r"@ (?P<out>ON (?P<word>DELETE|UPDATE) "
     r"(?:CASCADE |RESTRICT |NO ACTION |SET NULL |SET DEFAULT )?)", "",
     "Leave out ON {word}: the only referential action is NO ACTION."),
    (r"PERIOD FOR (?P<name>\w+) \( (?P<start>\w+) @ (?=\) )", ", E",
     "Write the period's name and its two columns: PERIOD FOR {name} ({start}, E)."),
    (r"^CREATE TABLE .*\) @ (?P<out>)$", "WITH SYSTEM VERSIONING",
     "Write WITH SYSTEM VERSIONING after the last parenthesis of CREATE TABLE.", "WITH"),
]

# No mend of an UPDATE or a DELETE may take these for granted: nothing is put there.
ASKED = [
    (r"^DELETE @ HISTORY ", None,
     "Leave this statement out: what was recorded is kept, and no statement takes it away. (Without"
     " HISTORY it would take out the rows that hold now.)"),
    (r"^(?:DELETE @ |UPDATE )(?P<word>TOP) ", None, NO_SHARE),
    (rf"{CHANGE}PORTION OF \w+ FROM @ (?P<out>NULL )", None,
     "Write the first day of the change for NULL: DATE '0001-01-01' is the first day of all."),
    (rf"{CHANGE}PORTION OF \w+ FROM (?:DATE ' TO )?@ (?P<out>{NOW})", None,
     "Write the day itself for {out}: DATE '2024-01-01'."),
    (rf"{CHANGE}@ (?P<word>ORDER|LIMIT|OFFSET|FETCH) ", None, NO_SHARE),
    (rf"{CHANGE}WHERE (?:.* )?"
     rf"(?P<out>(?:{COLUMN}@ (?:NOT )?IN |EXISTS @ |{SIGN} (?:ALL |ANY |SOME )?@ )"
     r"\( (?:SELECT|VALIDTIME|\() .*\) )", None,
     "There are no subqueries, and without {out} other rows would change. Ask for the values first,"
     " and compare with each of them."),
    (rf"{CHANGE}WHERE (?:.* )?(?:(?P<out>{COLUMN}@ IS (?:NOT )?NULL )|@ NULL )", None,
     "No column holds NULL. Compare with the value that is stored in its place, where there is one:"
     " '' or DATE '9999-12-31'."),
    (rf"{CHANGE}(?P<out>(?P<left>{COLUMN})@ (?P<no>NOT )?(?P<any>I?)LIKE (?P<text>' ))",
     rewriting.same_as_like, "There is no LIKE: {put}."),
    (rf"{CHANGE}WHERE (?:.* )?(?P<word>(?!IN |EXISTS |ALL |ANY |SOME ){NAME}) @ \( ", None,
     "There is no {word}: columns and literals are compared as they are."),
    (rf"{CHANGE}WHERE (?:.* )?@ [-+*] ", None,
     "There is no arithmetic: compare a column with the value itself."),
    (rf"{CHANGE}WHERE (?:.* )?0 @ \. 0 ", None,
     "Numbers have no fraction: write the number in the unit of its column, such as cents."),
    (rf"{CHANGE}(?P<word>AND|OR|WHERE|NOT) @ $", None, "Write what follows {word}."),
    (rf"{CHANGE}(?P<out>@ PERIOD \( DATE ' , DATE ' \) {PREDICATE}|{COLUMN}@ {PREDICATE})",
     rewriting.portion, "There are no period predicates in a change. {put}"),
]

CHANGES = [
    (r"VALUES (?P<out>\( @ (?P<rows>\( .*\) )\) )$", "{rows}",
     "Leave out the parentheses around all rows."),
    (r"^DELETE @ (?P<out>\* )", "", "Leave out *."),
    (r"(?:DATE|TIMESTAMP) @ (?P<out>0 - 0 - 0 )", "'{out}'", "Put {out} in single quotes.",
     "a text"),
    (r"VALUES @ (?P<out>(?P<row>[^(;]+))$", "({row})", "Write each row in parentheses."),
    (r"@ (?P<out>NULL )", "DATE '9999-12-31'",
     "Write a value for NULL: no column holds NULL. The end of a period that is open is DATE"
     " '9999-12-31'.", "a number"),
    (r"@ (?P<out>DEFAULT )", "0", "Leave out DEFAULT and its column, or write a value.",
     "a number"),
    (r"(?P<out>, @ TIMESTAMP ' )", "",
     "Leave out the two system columns: a row gives them no value."),
    (r"(?P<out>(?P<whole>0) @ \. (?P<part>0) )", rewriting.whole_number,
     "Write a whole number: numbers have no fraction. Money is kept in its smallest unit, such as"
     " cents: {put} for {out}."),
    (r"\) @ (?=\( )", ",", "Write a comma between two rows.", ","),
    (rf"SET (?:.* , )?{NAME} = @ (?P<out>(?!NULL |WHERE )(?:{NAME} |\( {INNER}\) ){INNER})"
     rf"(?=, {NAME} = |WHERE |$)", "0",
     "SET gives literals: write the new value in place of {out}, in an UPDATE for each old value."),
    (rf"SET (?:.* , )?{NAME} = (?:0|') @ (?P<out>[-+*] (?:0 |{COLUMN}))(?=, {NAME} = |WHERE |$)",
     "", "SET gives literals: write the new value itself."),
    (rf"(?:VALUES.*) @ (?P<out>{NAME} (?:\( [^()]*\) )?)(?=[,)])", "0",
     "A value is a number, a text in single quotes or a date, DATE '2024-01-01'. {out} is none.",
     "a number"),
    (r"(?:FROM|TO) @ (?P<out>)(?P<text>' )", "DATE", A_DATE, "DATE"),
    (r"PORTION OF \w+ FROM DATE ' TO @ (?P<out>NULL )", "DATE '9999-12-31'",
     "Write {put} for NULL: it is the end of a period that is open.", "DATE"),
    (rf"^(?:UPDATE|DELETE FROM) \w+ (?P<out>FOR @ {OTHER_DAYS})(?=FROM )",
     "FOR PORTION OF {period}", "Write {put} for {out}."),
    (r"^(?:UPDATE|DELETE FROM) \w+ @ (?P<out>(?:AS )?(?!SET |WHERE |FOR |HISTORY )[A-Z_]\w* )"
     r"(?=SET |WHERE |FOR )", "",
     "Leave out {out}, also before columns: the table of a change has no other name."),
    (rf"@ (?P<out>RETURNING (?:\* |{COLUMN}(?:, {COLUMN})*))$", "", LEAVE_OUT),
    (r"^INSERT .*@ (?P<out>ON (?:CONFLICT|DUPLICATE) .*)$", "", LEAVE_OUT),
    (r"^(?:UPDATE|DELETE FROM) (?P<out>(?P<table>\w+) (?P<rest>(?:SET|WHERE) .*?)@ "
     r"(?P<portion>FOR PORTION OF \w+ FROM DATE ' TO DATE ' ))", "{table} {portion} {rest}",
     "Write {portion} right after the table's name."),
    (r"^UPDATE .* @ (?P<out>(?P<where>WHERE .*?)(?P<set>SET .*))$", "{set} {where}",
     "Write SET before WHERE."),
]

QUERIES = [
    (r"(?P<out>(?P<word>COUNT|SUM|MIN|MAX|AVG) @ \( (?:DISTINCT )?\* \) )", "ENO",
     "There is no {word}: a select list has columns alone. Ask for the key, and count by"
     " tools/totals."),
    (r"(?P<out>(?P<word>COUNT|SUM|MIN|MAX|AVG) @ \( (?:DISTINCT )?(?P<of>[^()]*)\) )", "{of}",
     "There is no {word}: a select list has columns alone. Ask for {of} and the key:"
     " tools/totals counts and sums an answer."),
    (r"(?P<out>(?P<word>YEAR|MONTH|DATE_PART|DATE_TRUNC|EXTRACT) @ \( (?P<of>[^()]*)\) )", "A",
     "There is no {word}: columns and literals are compared as they are. The days of a year are"
     " those from DATE '2024-01-01' on and before DATE '2025-01-01'.", "."),
    (rf"(?P<out>(?P<word>(?!IN |VALUES |EXISTS |ALL |ANY |SOME ){NAME}) @ \( (?P<of>[^()]*)\) )",
     "A", "There is no {word}: columns and literals are compared as they are.", "."),
    (r"FROM @ \( (?:SELECT|VALIDTIME) ", None,
     "Name a table after FROM: there are no subqueries. Write the tables and conditions of the"
     " inner query into the outer one."),
    (r"AS @ (?P<out>' )", "A", "Write the new name without quotes.", "a name"),
    (r"(?P<out>MINUS @ )SELECT ", "EXCEPT", "Write EXCEPT for MINUS."),
    (r"FOR @ (?P<out>SYSTEM TIME )", "SYSTEM_TIME", "Write SYSTEM_TIME, one word."),
    (rf"(?P<out>FOR SYSTEM_TIME AS OF @ {NOW})", "",
     "Leave out {out}: without it a query asks for what is recorded now."),
    (rf"FOR SYSTEM_TIME (?:FROM|BETWEEN) TIMESTAMP ' (?:TO|AND) @ (?P<out>NULL |{NOW})",
     f"TIMESTAMP '{FOREVER}'", "Write {put} for {out}: what is recorded now has no end.",
     "TIMESTAMP"),
    (rf"^SELECT \* FROM (?P<table>\w+) "
     rf"(?P<out>FOR @ {OTHER_DAYS}(?P<days>AS OF (?:DATE )?(?P<day>' )"
     rf"|FROM (?:DATE )?(?P<start>' )TO (?:DATE )?(?P<end>' ))(?:WHERE (?P<where>.*))?)$",
     rewriting.days_of_others, "Name the days so: {put}."),
    (rf"(?P<out>FOR @ {OTHER_DAYS}(?:ALL|AS OF (?:DATE |TIMESTAMP )?'"
     r"|(?:FROM|BETWEEN) (?:DATE |TIMESTAMP )?' (?:TO|AND) (?:DATE |TIMESTAMP )?') )", "",
     "Leave out {out}: each row of an answer has its days. For some days alone, join a table with"
     f" one row that holds on these days: {recipe('An answer for some days alone')}."),
    (rf"^SELECT \* FROM (?P<table>\w+) (?P<out>@ (?:AS )?(?P<new>{NAME}) )(?=WHERE |$)", "",
     "Leave out {out}, also before columns: the table of SELECT * has no other name."),
    (r"(?:DISTINCT|,) @ (?P<out>(?:[-+] )?0 |' |DATE ' )", "A",
     "A select list has columns alone: leave out {out}. Names are written without quotes.",
     "a name"),
    (rf"(?P<out>ORDER @ BY {INNER}|@ ORDER BY {INNER})(?=LIMIT|OFFSET|FETCH|\) |$)", "",
     "Leave out ORDER BY: an answer is ordered by its values and then by first day."),
    (rf"(?P<out>GROUP @ BY {INNER}|@ GROUP BY {INNER})(?=HAVING|ORDER|LIMIT|OFFSET|\) |$)", "",
     "Leave out GROUP BY: it is not in the grammar."),
    (rf"(?P<out>HAVING @ {INNER}|@ HAVING {INNER})(?=ORDER|LIMIT|OFFSET|\) |$)", "",
     "Leave out HAVING: it is not in the grammar."),
    (r"(?P<out>(?:TOP|LIMIT|OFFSET) @ 0 |@ (?:LIMIT|OFFSET) 0 )", "",
     "Leave out {out}: an answer has all of its rows."),
    (r"(?P<out>(?:@ )?(?:LEFT|RIGHT|FULL) (?:@ )?(?:OUTER )?)JOIN ", "", NO_OUTER_JOIN),
    (r"(?P<out>(?:@ )?(?:OUTER|NATURAL) )JOIN ", "",
     "Leave out {out}: joins are inner, and each has its condition after ON."),
    (r"(?P<out>CROSS JOIN (?P<table>\w+) @ )", ", {table}", "Write a comma for CROSS JOIN."),
    (rf"(?:FROM|,) (?P<one>{NAME}) (?:{WINDOW})?(?:(?:AS )?(?P<new>{NAME}) )?(?:INNER )?"
     rf"JOIN (?P<two>{NAME}) (?:{WINDOW})?(?:(?:AS )?(?P<other>(?!USING @){NAME}) )?"
     rf"(?P<out>(?:USING @|@ USING) \( (?P<by>{NAME}(?: , {NAME})*) \) )", rewriting.equal_columns,
     "Write {put} for {out}."),
    (rf"JOIN {NAME} (?:(?:AS )?{NAME} )?@ (?P<out>WHERE )", "ON",
     "Write ON for WHERE: each JOIN has its condition after ON.", "ON"),
    (rf"(?:{SET_OPERATOR}) @ (?P<out>ALL )", "", "Leave out ALL: an answer has no duplicates."),
    (r"(?P<out>AS @ OF |@ AS OF )", "FOR SYSTEM_TIME AS OF", "Write FOR SYSTEM_TIME before AS OF."),
    (r"FOR SYSTEM_TIME @ (?P<out>ALL )",
     f"FROM TIMESTAMP '{FIRST_MOMENT}' TO TIMESTAMP '{FOREVER}'",
     "Write {put} for ALL."),
    (r"FOR SYSTEM_TIME @ (?P<out>)(?P<text>' |TIMESTAMP ' )", "AS OF",
     "Write AS OF, FROM .. TO or BETWEEN .. AND after FOR SYSTEM_TIME."),
    (r"@ (?=' )", "TIMESTAMP",
     "Write TIMESTAMP before the text of a moment: TIMESTAMP '2024-01-01 00:00:00'.", "TIMESTAMP"),
    (r"@ (?P<out>DATE ' )", "TIMESTAMP '2024-01-01 00:00:00'",
     "Write a moment, with the time of the day: {put}.", "TIMESTAMP"),
    (rf"FROM (?P<out>(?P<table>\w+) (?P<where>WHERE .*?)@ (?P<window>{WINDOW}))",
     "{table} {window} {where}", "Write {window} right after the table's name, before WHERE."),
    (rf"(?P<out>(?P<new>(?:AS )?{NAME} )@ (?P<window>{WINDOW}))", "{window} {new}",
     "Write the new name after FOR SYSTEM_TIME: {put}."),
    (rf"@ (?P<out>(?P<where>WHERE .*?)"
     rf"(?P<from>FROM {NAME} (?:(?:AS )?(?!{SET_OPERATOR}){NAME} )?))",
     "{from} {where}", "Write FROM before WHERE."),
]

# Conditions whose mends ask the same.
SAME_CONDITIONS = [
    (rf"(?P<out>(?P<left>{COLUMN})@ (?P<no>NOT )?IN \( (?P<items>(?:{LITERAL}|, )+)\) )",
     rewriting.comparisons, "There is no IN: write {put}."),
    (rf"(?P<out>(?P<left>{COLUMN})@ (?P<no>NOT )?"
     rf"BETWEEN (?P<low>{OPERAND})AND (?P<high>{OPERAND}))", rewriting.between,
     "BETWEEN is for FOR SYSTEM_TIME alone: write {put}."),
    (r"(?P<out>= @ = )", "=", "Write = for ==."),
    (r"(?P<out>, )@ WHERE ", "", NO_COMMA),
]

CONDITIONS = [
    (rf"^(?P<out>(?P<query>VALIDTIME SELECT DISTINCT (?P<left>{COLUMN})FROM {NAME} "
     rf"(?:WHERE (?:(?!OR )\S+ )*(?=AND {COLUMN}@))?)"
     rf"(?:WHERE|AND) {COLUMN}@ NOT IN \( SELECT (?:DISTINCT )?(?P<inner>[^()]*)\) )$",
     "{query} EXCEPT SELECT DISTINCT {inner}",
     f"There are no subqueries. EXCEPT takes away, on each day by itself: {{put}}. {EVER}"),
    (rf"(?P<out>(?P<left>{COLUMN})@ (?P<no>NOT )?IN \( (?:SELECT|VALIDTIME|\() .*\) )", "A = A",
     NO_SUBQUERY),
    (r"(?P<out>EXISTS @ \( (?:SELECT|VALIDTIME) .*\) )", "A = A", NO_SUBQUERY),
    (r"(?:=|<>|<|>|<=|>=) @ (?P<out>\( (?:SELECT|VALIDTIME) .*\) )", "A", NO_SUBQUERY),
    (rf"(?P<out>(?P<left>{COLUMN})@ (?P<no>NOT )?I?LIKE (?P<text>' ))", rewriting.like,
     "There is no LIKE: compare by = and by <, such as {put}."),
    (rf"(?P<out>(?P<left>{COLUMN})@ IS NULL )", rewriting.meant,
     "No column holds NULL, so no row would meet {out}. Store a value that means it, such as '' or"
     " DATE '9999-12-31', and compare with it: {put}."),
    (rf"(?P<out>(?P<left>{COLUMN})@ IS NOT NULL )", "{left} = {left}",
     "No column holds NULL, so each row meets {out}: leave it out, with its AND or WHERE."),
    (r"(?:=|<>|<|>|<=|>=) @ (?P<out>NULL )", "''",
     "No column holds NULL: store a value that means it, such as '' or DATE '9999-12-31', and"
     " compare with it."),
    (rf"VALIDTIME .*(?P<out>@ PERIOD \( DATE ' , DATE ' \) {PREDICATE}"
     rf"|(?:(?<=WHERE )|(?<=AND )|(?<=OR )|(?<=NOT )|(?<=\( )|(?<=ON )){COLUMN}@ {PREDICATE})",
     "A = A", CALENDAR),
    (rf"@ (?P<out>[-+*] (?:0|'|{NAME}) )", "", NO_ARITHMETIC, "."),
    (rf"@ (?P<out>[-+*] (?:0|'|{NAME}) )", "", NO_ARITHMETIC, "AND"),
    (r"(?:=|<>|<|>|<=|>=) (?P<out>(?:ALL|ANY|SOME) @ \( .*\) )", "A", NO_SUBQUERY),
    (r"(?P<out>(?P<word>AND|OR|WHERE|NOT) )@ $", "", "Leave out {word}, or write what follows."),
    (r"(?P<out>, )@ (?:(?:\)|FROM|WITH) |$)", "", NO_COMMA),
]

# Each pattern begins with a token.
LISTS: tuple[tuple[list[Any], bool], ...] = (
    (BEGINNINGS, True), (DEFINITIONS, False), (ASKED, True), (CHANGES, True), (QUERIES, False),
    (SAME_CONDITIONS, True), (CONDITIONS, False))
SLIPS = [Slip(re.compile(rf"(?<![^ ])(?:{pattern})"), put, what, (*expects, "")[0], in_changes)
         for slips, in_changes in LISTS for pattern, put, what, *expects in slips]
