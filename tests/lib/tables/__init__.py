"""Configurations as tables, with what `check` tells of each."""
