"""Parts whose cases are written by hand, or read from documents, examples and packages."""
