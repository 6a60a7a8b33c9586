"""The sentences of tools/explain and tools/run on refusals.

    texts         sentences for a terminal: shortened, wrapped
    causes        of each number what is to do, and of some the cause
    report        the refusals of a report, and whether they belong to its script
    bad_tokens    where a whole script is refused: the place, the text, the mend
    slips         common slips in statements without the right syntax, as patterns
    rewriting     the mends of slips that a template doesn't write
    mends         which mends take a statement without the right syntax further, tried one by one
    clashes       which rows 42 and 43 are about
    explaining    the text about each refused statement of a script
"""
