"""What is counted, and its text in Prometheus' form."""
import resource
import time

BUCKETS = (0.0005, 0.001, 0.002, 0.005, 0.01, 0.025, 0.05, 0.1, 0.25, 1.0)  # seconds from a cut to its acknowledgement


class Counts:
    def __init__(self):
        self.epochs = self.epochs_said = self.epochs_full = self.checkpoint_bytes = self.checkpoint_pages = self.commits = 0
        self.frames_in = self.frames_out = self.frames_dropped = self.networks_mended = 0
        self.paced = 0.0  # seconds
        self.steps = self.failovers = self.attachments = self.begun_again = self.links = self.dropped_messages = 0
        self.ack_counts, self.ack_sum = [0] * (len(BUCKETS) + 1), 0.0

    def acknowledged(self, seconds):
        place = next((place for place, bucket in enumerate(BUCKETS) if seconds <= bucket), len(BUCKETS))
        self.ack_counts[place] += 1
        self.ack_sum += seconds


def text(host):
    """All metrics of a daemon."""
    counts, live, lines = host.counts, host.live, []

    def tell(name, kind, meaning, *values):
        lines.append(f"# HELP {name} {meaning}")
        lines.append(f"# TYPE {name} {kind}")
        lines.extend(f"{name}{labels} {value:.9g}" if isinstance(value, float) else f"{name}{labels} {value}"
                     for labels, value in values)

    def one(name, kind, meaning, value):
        tell(name, kind, meaning, ("", value))

    tell("remus_role", "gauge", "1 for the role that this host has.",
         *((f'{{role="{role}"}}', int(host.role == role)) for role in ("empty", "standby", "live", "frozen")))
    one("remus_generation", "gauge", "The guest's generation.", host.generation)
    one("remus_link_up", "gauge", "1 while the peer is attached.", int(host.link.is_up))
    one("remus_two_live", "gauge", "1 while this host is live and the peer says that it is, too.",
        int(host.meeting.are_two_live(time.monotonic())))
    one("remus_full", "gauge", "1 where the guest could go on here.", int(host.full))
    one("remus_epochs_total", "counter", "Epochs that ended in a checkpoint.", counts.epochs)
    tell("remus_epochs_ended_total", "counter", "Epochs by why they ended: the guest had something to say, its outbox was full, or it was time.",
         ('{why="said"}', counts.epochs_said), ('{why="full"}', counts.epochs_full),
         ('{why="time"}', counts.epochs - counts.epochs_said - counts.epochs_full))
    one("remus_checkpoint_bytes_total", "counter", "Bytes of checkpoints that were cut or committed here: of a full one once it is fetched.",
        counts.checkpoint_bytes)
    one("remus_checkpoint_pages_total", "counter", "Page records of checkpoints that were sent.", counts.checkpoint_pages)
    one("remus_commits_total", "counter", "Checkpoints that were committed here.", counts.commits)
    acknowledgements(lines, counts)
    one("remus_pending_checkpoints", "gauge", "Checkpoints that are cut and not acknowledged.", len(live.pending) if live else 0)
    one("remus_frames_in_total", "counter", "Frames that the guest's card was handed.", counts.frames_in)
    one("remus_frames_out_total", "counter", "Frames of the guest that were let out.", counts.frames_out)
    one("remus_frames_held", "gauge", "Frames that the last acknowledged checkpoint had held.", live.held if live else 0)
    one("remus_frames_lost_total", "counter", "Frames that the network didn't take.", host.network.lost)
    one("remus_network_up", "gauge", "1 unless something is wrong with the tap or its bridge.", int(host.network.wrong is None))
    one("remus_network_mended_total", "counter", "Times that the tap was made anew, put on its bridge again, or switched on again.",
        counts.networks_mended)
    one("remus_frames_dropped_total", "counter", "Frames for the guest that had a wrong length.", counts.frames_dropped)
    one("remus_messages_dropped_total", "counter", "Messages of the link, and connections, that were dropped.", counts.dropped_messages)
    one("remus_steps_total", "counter", "Steps that the guest made here.", counts.steps)
    one("remus_late_seconds_total", "counter", "Guest time that was left out.", float(live.late) if live else 0.0)
    one("remus_paced_seconds_total", "counter", "Guest time that was left out while a standby was filled, since the guest wrote much.",
        counts.paced)
    one("remus_longest_stand_seconds", "gauge", "The longest time in which the guest made no step, but for waiting.",
        float(live.longest) if live else 0.0)
    one("remus_failovers_total", "counter", "Times that a standby went live here.", counts.failovers)
    one("remus_attachments_total", "counter", "Standbys that were attached, or attachments of this one.", counts.attachments)
    one("remus_begun_again_total", "counter", "Times that a standby's filling was begun again, since the guest wrote much at once.",
        counts.begun_again)
    one("remus_links_total", "counter", "Links to the peer that came up.", counts.links)
    kept, log = host.kept, host.kept.keeper.log
    one("remus_log_bytes", "gauge", "Bytes of the log, beside its base.", log.end if log else 0)
    one("remus_log_syncs_total", "counter", "Syncs of the log.", kept.keeper.syncs)
    one("remus_log_sync_seconds_total", "counter", "Time that these took.", float(kept.keeper.sync_seconds))
    one("remus_log_failures_total", "counter", "Times that a log failed, or couldn't be begun.", kept.failures)
    one("remus_log_failed", "gauge", "1 where the log that is written failed.", int(kept.keeper.failed is not None))
    one("remus_log_protects", "gauge", "1 where a live host keeps a log of its own, without which it lets nothing out.",
        int(live is not None and live.own is not None))
    one("remus_log_refused", "gauge", "1 where the log that was here at the daemon's start is refused.", int(kept.refused is not None))
    one("remus_node_memory_bytes", "gauge", "Memory of the node's process.", host.node.memory())
    one("remus_daemon_memory_bytes_max", "gauge", "The most memory that the daemon had.",
        resource.getrusage(resource.RUSAGE_SELF).ru_maxrss * 1024)
    return "\n".join(lines) + "\n"


def acknowledgements(lines, counts):
    name = "remus_acknowledgement_seconds"
    meaning = "Time from a cut to its acknowledgement, where it held frames or much was written."
    lines += [f"# HELP {name} {meaning}", f"# TYPE {name} histogram"]
    total = 0
    for bucket, count in zip((*BUCKETS, "+Inf"), counts.ack_counts):
        total += count
        lines.append(f'{name}_bucket{{le="{bucket}"}} {total}')
    lines += [f"{name}_sum {counts.ack_sum:.9g}", f"{name}_count {total}"]
