"""Differences of two cluster files, of two runs of a cluster, and of two recordings of a bus."""
