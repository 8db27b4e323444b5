"""Signals in the payloads of frames: their descriptions in a cluster file, their coding, and their texts."""
