"""The parts of tools/try-real, which tries the built program on real files and sockets."""
