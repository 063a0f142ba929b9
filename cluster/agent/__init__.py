"""The parts of ocf:remus:pair."""
