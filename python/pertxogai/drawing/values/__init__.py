"""Named values and expressions: numbers with units, how they are written, and what they come to."""
