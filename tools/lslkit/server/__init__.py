"""A server of the Language Server Protocol for scripts and world files: tools/lsl-server runs it."""
