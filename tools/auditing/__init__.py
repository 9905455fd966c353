"""What a definition or a contract stands on: the definitions that its reader must believe, besides the toolchain's own."""
