"""The subcommands that show maps, as those of octofix.cli.commands."""
