"""What stands in a root folder, as site.toml has it: the modules behind tools/make-site and tools/link-unit.

Paths and names are bytes, as the kernel has them, and paths begin with a slash at the root; only `toml` makes text of them.
"""
