"""The installed files of the program, and its packages."""
