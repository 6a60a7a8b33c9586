"""Scripts in slices of days, each a run of its own.

    source      the statements of a script, and what of each a slice of days has
    csv_rows    the rows of CSV files, one after the other, and what of each a slice has
    borders     the days on which slices end, so that each is small enough for a run
    slice_file  the script of a slice in a file, from which a statement can be taken out
    workers     slices as runs of the program: here, or on the workers of a Dask cluster
    elsewhere   slices that are run elsewhere: the file with them until they are joined
    task        what a worker of a Dask cluster runs
    outcomes    the report of a slice in its file: what became of each statement, where its rows are
    rounds      runs until all slices agree which statements are refused
    joining     the answers of the slices joined at the borders
"""
