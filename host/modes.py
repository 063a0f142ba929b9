"""How a live host stands to its standby: it has none, or one that hasn't all that was let out, or one that can go live."""

ALONE, FILLING, PAIRED = "alone", "filling", "paired"
MOST_PENDING = 4  # checkpoints
