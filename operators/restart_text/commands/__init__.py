"""The subcommands of restart-text: each module has `arguments`, which says what it takes, and `work`, which does it and gives the
exit status."""
