"""What a host that keeps logs, and is alone, does with its guest as it ends: nobody is there to hand it to, and a standby's log is over once
its host has gone live. So the guest is written as a log of its own, from which this host comes back as a standby."""
from host.log.kept import most_of
from host.log.recovery import full_text
from host.modes import ALONE
from host.node import NodeEnded, Refused

SECONDS = 10.0  # for what is written to be on the disk


def is_due(host: "Daemon") -> bool:
    """Whether what this host holds is nowhere else, and in no log."""
    live = host.live
    return live is not None and live.mode == ALONE and live.own is None and host.kept.keeps and host.kept.keeper.failed is None


def keep(host: "Daemon") -> None:
    """The guest stops, and is on the disk when this returns, unless that is said to have failed."""
    live, kept = host.live, host.kept
    try:
        live.stop(host.link.now())
        live.protect(host.link.now())
        if why := written(host):
            host.log.error(f"the guest can't be written into the log in {kept.folder}: {why}; what this host held is gone")
        else:
            host.log.info(f"the guest is in the log in {kept.folder}, as checkpoint 0 of generation {live.generation}: this host comes back "
                          "as a standby from there")
    except (Refused, NodeEnded) as error:
        host.log.error(f"the guest can't be had for the log in {kept.folder}: {error}; what this host held is gone")


def written(host: "Daemon") -> str | None:
    """Why the full checkpoint that is pending isn't on the disk, if it isn't."""
    kept, keeper, generation = host.kept, host.kept.keeper, host.live.generation
    keeper.prepare(generation, most_of(*host.shape))
    is_first = True
    for data in full_text(host.node, host.shape[0]):
        keeper.piece(data, is_first)
        is_first = False
    keeper.begin(generation, kept.own_head(""))
    if keeper.finish(SECONDS):
        return None
    return keeper.failed or f"the disk took longer than {SECONDS:.0f} s"
