"""Two hosts, their networks, a power switch and clients, all on this machine: what tests/cluster stands on."""
