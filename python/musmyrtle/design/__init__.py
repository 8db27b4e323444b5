"""The command `design`: a cluster file of a list of messages, found by a search and judged by the proved programs."""
