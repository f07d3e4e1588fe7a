//! Stands in for the original's module of this name, whose texts no case prints.
