"""The subcommands. Each module has HELP, a line; `arguments(parser)`; where it writes files
`outputs(options)`, their names with their kinds; and `run(options)`, which answers the exit
status."""
