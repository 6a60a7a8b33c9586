"""Pictures of a report, for tools/timeline.

    days_axis        days to places on a line, and which of them get a mark
    text_room        how much room a text takes, and texts cut to a room
    canvas           an SVG picture that grows downwards
    answer_picture   the rows of an answer: a bar for each, with its witness, or lanes
    curve_picture    totals of an answer as curves
    version_picture  versions over two axes: days to the right, moments of recording upwards
    letters          answers as time lines for a terminal
    drawings         what is drawn of statements, by pages
    page             pictures to a web page
    png              a picture as PNG, by a converter that is installed
"""
