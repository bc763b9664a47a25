"""The definitions of the crates and the types that they read as data, for `tools/headline`."""
