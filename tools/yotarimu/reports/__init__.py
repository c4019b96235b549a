"""Reports: read, explained in words for people and as plain data for programs, and what is wrong with a line."""
