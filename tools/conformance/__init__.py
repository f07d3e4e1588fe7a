"""The conformance suite for bindings: the rows of vmscript as data, and players of it. docs/CONFORMANCE.md has the form."""
