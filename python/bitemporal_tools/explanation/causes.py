"""Of each number that a statement can get what is to do, and the cause if no place says it."""
from collections.abc import Mapping
from typing import Optional

from bitemporal_tools.sql.catalog import Table
from bitemporal_tools.sql.literals import FOREVER, GREATEST_NUMBER, LEAST_NUMBER
from bitemporal_tools.sql.tree import Create, Delete, Insert, Sequenced, Stored, Tree, Update

from .texts import recipe

CAUSES = {
    61: "The system refused memory that the statement needed. Nothing is wrong with the"
        " statement.",
    62: "The database refused the statement, for a cause other than memory.",
}

NO_STATEMENT = ("Begin with CREATE, INSERT, VALIDTIME, AT, UPDATE, DELETE or SELECT: no other"
                " statement is in the grammar.")
VALUES_OF_TYPES = ("Write a number for INTEGER, a text in single quotes for VARCHAR, and the word"
                   " DATE before the text for DATE: DATE '2024-01-01'.")
WHAT_TO_DO = {
    10: "Compare it with the grammar in docs/PROFILE.md, section 4.",
    11: "Close parentheses earlier, or leave out those that change nothing.",
    12: "Write four digits for the year, two for the month and two for the day, and a day that the"
        " month has: DATE '2024-02-29'.",
    13: "Write nineteen characters with one space, or these, a point and one to six digits, and no"
        " time zone: TIMESTAMP '2024-01-01 00:00:00', TIMESTAMP '2024-01-01 00:00:00.25'. After AT"
        f" and AS OF name an earlier moment than {FOREVER}.",
    14: f"Write a number from {LEAST_NUMBER} to {GREATEST_NUMBER}, or keep its digits as a text in"
        " a VARCHAR column.",
    21: "Split the statement: a long INSERT into several of fewer rows (999 rows of one number and"
        " two dates are the most).",
    22: "Choose another name, or leave out this CREATE TABLE. Names ignore case: emp and EMP are"
        " one table.",
    23: "Check the spelling, and that its CREATE TABLE comes before this statement.",
    24: "Write a name that is there. Where a column is meant, a period's name is unknown, and where"
        " a period is meant, a column's name is.",
    25: "Put the table's name before the column: X.ENO.",
    26: "Name the column once.",
    27: "Leave it out.",
    28: "Compare it with the example of CREATE TABLE in docs/PROFILE.md, section 4.",
    29: "Give a value for each column but the two system columns. A column list names each of"
        " these columns once.",
    30: VALUES_OF_TYPES,
    31: "Shorten the text, or create the table with a larger n in VARCHAR(n), at most 1000.",
    40: "Put the statements into the order of their moments. The same moment twice is allowed.",
    41: "Write the start before the end. The end is the first day on which the row no longer"
        " holds, so a row of one day ends on the next day. No row starts on 9999-12-31.",
    42: "Let the earlier row end no later than the day on which the other starts, or give one of"
        " them another key.",
    43: "Insert parents before their children, over each day of the children. Delete or change a"
        " parent only on days on which no child names it.",
    61: "Run the script where there is more memory, or split it into scripts of fewer rows and"
        " queries: rows and answers are kept until a script ends.",
    62: "Run the script again, and report it where it happens again.",
}

# Advice on statements of one kind, if it differs.
CHANGED_DAYS = ("Leave it out. The days of a change are named by FOR PORTION OF, right after the"
                " table's name, and the system columns are set by the clock alone.")
IN_STATEMENTS = {
    (21, Create): "Split the table into several, or leave out tables that are not needed.",
    (21, Sequenced): "Ask a part of it first, and make a table of the answer: tools/answers writes"
                     " the answer as CSV, and tools/load makes rows of that. Ask the rest of this"
                     " table.",
    (23, Create): "Check the spelling, and that its CREATE TABLE comes before this one. A table"
                  " cannot reference itself.",
    (25, Create): "Rename one of the two columns of this name.",
    (26, Create): "Rename one of the two, or name the column once.",
    (26, Sequenced): "Give one of the tables a new name: EMP AS Y.",
    (27, Create): "A key and a reference name the period in place of its columns: PRIMARY KEY (ENO,"
                  " EP WITHOUT OVERLAPS).",
    (27, Insert): "Leave it out: an INSERT gives the values and the period columns, and the system"
                  " columns are set by the clock.",
    (27, Update): CHANGED_DAYS,
    (27, Delete): CHANGED_DAYS,
    (27, Stored): "Write a period predicate for it: {period} CONTAINS DATE '2024-01-01', or"
                  " {period} OVERLAPS PERIOD (DATE '2024-01-01', DATE '2024-04-01'). What was"
                  " recorded at a moment is asked by FOR SYSTEM_TIME, right after the table's"
                  " name.",
    (27, Sequenced): "Leave it out: each row of an answer has its days without being asked for"
                     " them. For an answer for some days alone join a table with one row that holds"
                     f" on these days: {recipe('An answer for some days alone')}. What was recorded"
                     " at a moment is asked by FOR SYSTEM_TIME, right after the table's name.",
    (29, Create): "Name as many columns as the key of the other table has.",
    (29, Sequenced): "Select as many columns on one side of the operator as on the other.",
    (30, Create): "Give both columns one type.",
    (30, Insert): f"{VALUES_OF_TYPES} Without a column list the values come in the order of CREATE"
                  " TABLE, the two system columns left out.",
}


def what_to_do(code: int, tree: Optional[Tree], tables: Mapping[str, Table]) -> str:
    """Advice on a refusal of a statement over these tables."""
    what = IN_STATEMENTS.get((code, type(tree)), WHAT_TO_DO[code])
    if '{period}' in what and isinstance(tree, (Update, Delete, Stored)):
        return what.replace('{period}', tables[tree.table].period.name)
    return what
