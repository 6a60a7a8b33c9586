"""The language of docs/PROFILE.md for the tools: its lexis, its grammar, and the refusals that a
script alone decides (1 to 3, 10 to 14, 21 to 31, 40 and 41).

    lexis        a script's bytes to tokens, each with its place, and tokens to statements' pieces
    tree         what a statement is once it is read
    reader       the tokens of one piece, and what could be at the first one that is wrong
    literals     which texts are dates and moments, which numbers are stored
    parser       the grammar of statements;  query_parser: the grammar of queries and conditions
    refusals     the numbers, their names, the limits, and a fault: a number with place and reason
    catalog      the tables and the clock after some statements
    scope, definitions, changes, queries    what is wrong with the names and values of a statement
    script       a whole script, judged statement by statement
    current_rows the current rows after some statements: what 42 and 43 are about

For a script's text `script.judge` gives its statements, each with its tree and its faults.
python/tests/test_sql.py compares all of this with the program on random scripts.
"""
