"""What the parts of the comparison have in common: how the program is run, the boards that it is run over, and how rows are written."""
