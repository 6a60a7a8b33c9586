"""Stores in files, read and written by Python's own sqlite3 over the bytes of docs/PROFILE.md
section 11.

    spelling       values, days and moments as bytes and numbers, and as texts
    tables         the definition of a table: as bytes, and as CREATE TABLE
    reading        a store that exists: its clock, its tables and its versions, never written
    writing        a new store, which gets its name once it is whole and judged
    asking         the program: what it says of a store, and its report of a script
    judgement      why the program refuses a new store

    states         what changed at each moment, and for which days of which key
    comparing      what only one of two histories has
    changes_text   rows as INSERT statements and conditions
    history_script a history as a script
    history_files  a history as a folder of texts, and back
"""
