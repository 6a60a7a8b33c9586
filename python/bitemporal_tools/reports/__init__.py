"""Reports of the program, and what is made of them.

    records        the records of docs/PROFILE.md section 9: fields to a line of CSV, and back
    report         a report read with its script: what became of each statement
    listing        the tables of a store, as `bitemporal_file STORE --tables` lists them
    shown          texts for spreadsheets and terminals: formulas and control characters made
                   harmless
    answer_tables  answers as tables
    answer_texts   tables as CSV, aligned text and a web page
    parquet        tables as Parquet
    forms          the forms in which tables are written, and the options for them
    runs           the report of a script that is run for it
    asked          the options by which a script, its report and its answers are named
"""
