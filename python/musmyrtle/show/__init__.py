"""The command `musmyrtle`: what the programs answer, with names and microseconds, for people and for other programs."""
