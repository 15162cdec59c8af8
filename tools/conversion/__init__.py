"""Makes files of Apertium 3 into the notation that the program reads."""
