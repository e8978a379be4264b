"""Generators of the stored cases; ../remake.sh runs them all."""
