"""What has to be read to believe a statement: the definitions that its clauses mention, through definitions. `tools/guarantees` uses it."""
