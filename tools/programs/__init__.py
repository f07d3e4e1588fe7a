"""How built programs are tried: their rows and the rules that make more of them, their inputs, refused allocations. `tools/rows`, `tools/runs`,
`tools/refused-memory`, `tools/bindings` and `tools/simulate` use it."""
