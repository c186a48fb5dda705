"""The parts of tools/test: each makes jobs, which are tests of a built program."""
