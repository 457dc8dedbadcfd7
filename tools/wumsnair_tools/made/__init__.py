"""The parts of tools/made: each has a function `files`, which gives the files that it makes, with the bytes that they must have."""
