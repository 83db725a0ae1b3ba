"""The tools of the command line: commands, their arguments, and what is said of faults."""
