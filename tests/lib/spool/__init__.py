"""What the tests of a spool share: its segments, written and read by another hand."""
