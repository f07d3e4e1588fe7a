"""The survey of the house: where things stand in this repository, in figures, as a map, and what a change touches.

`tools/house`, `tools/where` and `tools/map` are its commands."""
