"""Scenarios that replay recordings of a bus."""
