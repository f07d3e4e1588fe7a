"""What the checks of sources and pages share, with their lists: `tools/documents`, `tools/imports`, `tools/rename`, `tools/statements`, `tools/style`
and `tools/tutorial` use it. `kit.py` is also run alone."""
