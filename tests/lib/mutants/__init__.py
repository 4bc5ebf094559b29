"""Single changes of sources, each behind a number: found in Rattle by `rattle_changes`, in Python and shell by `script_changes`; made one
program by `program`, and tried by tests/gate/mutants.py."""
