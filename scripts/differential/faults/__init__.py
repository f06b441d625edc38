"""Parts that have streams, files and memory fail, and those that try how much there may be."""
