"""The repository's gate, behind `./check`."""
