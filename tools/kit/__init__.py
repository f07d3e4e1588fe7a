"""What `tools/unproved` and `bindings/build` know of the kit: where it lies, how the crates hang together, and how a build without a proof is made."""
