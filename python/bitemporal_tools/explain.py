"""Explains the refusals of a report: where each refused statement is, why, and what to do.

    tools/explain SCRIPT [REPORT] [--tables LIST]

REPORT is what `bitemporal run` or `bitemporal check` printed for SCRIPT; if it is left out or
`-`, it is standard input. (tools/run runs a script and explains its refusals in one go.)

For each refused statement this prints the line and the column of its first token, both from 1,
columns in characters; its number and the refusal's; the first line of its text; and then,
with line and column, the cause and what to do. Of 10 Syntax it names the first token that no
statement can have there and what could be there; a mend is shown only if the statement with it
is right. Of 22 to 43 it names the name, the value or the row, by the tables and rows of the script.
If the whole script was refused (1 to 3) the report is empty, and this names the place too.
Then notes are printed on statements that are right and may say something else than was meant: a
join with LEFT before it, and EXCEPT or INTERSECT between sides that never have a row in common.

The exit status is 0, or 2 with a line on standard error if a file cannot be read, or the report
is not this script's.
"""
from collections.abc import Sequence

from bitemporal_tools import command_line, options
from bitemporal_tools.command_line import Fault, read_bytes, read_text
from bitemporal_tools.explanation.explaining import Explanation
from bitemporal_tools.reports.listing import TABLES, named_catalog
from bitemporal_tools.reports.report import NotOfScript


def main(words: Sequence[str]) -> int:
    parser = command_line.parser('explain', __doc__)
    options.add(parser, {'SCRIPT': '', '[REPORT]': '', **TABLES})
    wanted = parser.parse_args(words)
    try:
        explanation = Explanation(wanted.script, read_bytes(wanted.script),
                                  read_text(wanted.report), named_catalog(wanted.tables))
    except NotOfScript as why:
        raise Fault(why) from None
    texts = [*explanation.texts, *explanation.notes]
    command_line.write_output('\n\n'.join(texts) + '\n' * bool(texts))
    return 0
