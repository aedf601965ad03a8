"""The parts of tools/try-edits, which tries wrong bodies, and of tools/check-change, which tries a change."""
