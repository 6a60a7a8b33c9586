"""Reckonings over the days of an answer: outside the proofs, in whole numbers.

    numbers    days as numbers
    rows       the rows of an answer, with days as numbers
    csv_table  an answer that was written as CSV
    steps      counts and sums on each day, as the fewest periods
    totals     the counts and sums of an answer's rows, by groups
    stretches  days in a row, and the gaps between them
    windows    months, quarters, years and other ranges of days
    choices    what holds on some day, and what on none
"""
