"""The debugger's faces over its core, the program `lsl_debug`: a terminal and an adapter for editors."""
