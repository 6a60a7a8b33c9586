"""The changes that `alter` makes to the tables of a store.

    schema       the tables as they are to be, and from which values each of their columns is made
    changes      one change each: what it needs, and what it makes of the tables
    words        the changes that the options of the command line name
    statements   those that ALTER TABLE and DROP TABLE of a script name
"""
