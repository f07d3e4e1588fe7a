"""The bindings in Rust and other languages: each is built, plays the conformance suite, runs its tests, and says what is wrong with a library."""
