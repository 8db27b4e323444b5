"""The findings about a cluster file, a scenario or a trace: the command `musmyrtle lint`."""
