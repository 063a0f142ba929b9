"""The log of a standby, and of a live host: the texts of checkpoints, in files of a folder, so that they outlive every host's power.
docs/LOG.md has the format. `format` spells records, `disk` touches files, `writer` writes what `keeper` is given on a thread of its own,
`logged` says how far that is, `own` is a live host's, whose bases `based` and `write_base` make, `feed` reads it for a standby that is
filled, `witness` keeps what was heard of the other host's, `reading` judges what a folder holds, `recovery` makes a node of it again,
`past` keeps what isn't needed any more, `history` finds the guest as it was, `save` and `export` make snapshots, and `command` shows
it."""
