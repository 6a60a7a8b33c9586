"""CSV files to statements.

    options        the command line
    csv_file       a CSV file with the line of each record
    guess          a first guess of a CREATE TABLE from a file's header and values
    cells          a cell of the file to a value of the language
    tables         the table: of a script, or of a store
    mapping        which column of the file is which of the table, and its records as facts
    corrections    facts in the order of their recording to changes of portions
    clashes        lines that say something of one day of a key, and ends that look a day early
    handovers      rows that follow each other within a group of columns, whatever the key
    stored_rows    the rows of a store for some keys, now and ever
    late_lines     what a store lacks of lines that were recorded before its clock
    moment_changes  the statements of each moment, over a store too
    script_writer  statements to scripts, each within the limits
"""
