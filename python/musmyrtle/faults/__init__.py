"""Every single fault of a network, each in a run of its own: the command `musmyrtle faults`."""
