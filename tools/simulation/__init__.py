"""Random rounds of random handlers, played by `vmrounds` and judged by the rules of the journal: see tools/simulate."""
