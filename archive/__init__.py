"""The modules of p21archive."""
