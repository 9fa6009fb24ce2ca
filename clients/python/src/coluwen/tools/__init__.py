"""The commands of the package: each module has one, and `command.py` what they share."""
