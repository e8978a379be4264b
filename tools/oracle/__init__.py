"""Independent programs for the answers: written from document 01 alone, they share nothing with the library."""
