"""The two builds of the program: how each is made, and by what it is known to be of the sources."""
