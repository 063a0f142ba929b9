"""What two hosts say when they meet, and what follows. Who isn't live dials, and says HELLO; who is live answers OFFER, RESUME, OVER or NO.
A standby that was offered an attachment makes itself ready for it, and says READY; only then is the full checkpoint cut."""
import secrets
from typing import Any

from host import messages
from host.backoff import Backoff
from host.connection import Closed, Connection
from host.drift import Drift
from host.link import AGAIN
from host.live import LONG
from host.log.kept import Unprepared
from host.messages import GO_LIVE, HELLO, NO, NO_SESSION, OFFER, OVER, READY, RESUME, Malformed, fields
from host.modes import ALONE, FILLING, PAIRED
from host.node import Refused
from host.troubles import Trouble

SOON_LOST = 10.0  # seconds: a standby that was lost sooner, and again, isn't filled at once
FREE_LOSSES = 2  # in a row
SAYS_AGAIN = 1.0  # seconds, within which a host that isn't attached says again what it is: it dials, and is dialled, a few times a second
LEAST_SILENCE = 0.2  # seconds
KEEP_ONE = "Cut one from the guest's network, keep the one that you trust, and restart the daemon of the other"


class Meeting:
    """`host` is the daemon."""

    def __init__(self, host):
        self.host, self.link, self.log = host, host.link, host.log
        self.offered = {}  # by connection: the session's name, and who it was offered to
        self.drift = Drift(host.settings, host.log)
        self.protecting, self.standing_by = Backoff(), Backoff()  # how long after a failure the next standby is taken; is asked for
        self.peer_role, self.live_at = None, None  # what the peer said last that it is; when it said that it is live, if it is
        self.says_every, self.is_by_call = 0.0, False  # how often it says so, if that isn't all the time; whether this host had called it
        self.said_role = None  # what this host said last that it is, as it called the peer
        self.conflict = Trouble(host.log)
        self.attached_at, self.losses = 0.0, Backoff(FREE_LOSSES)  # of this live host's standbys

    def hello(self):
        host = self.host
        self.said_role, session = host.role, host.branch
        return messages.told(HELLO, NO_SESSION, version=messages.VERSION, name=host.settings.name, instance=host.instance,
                             role=host.role, session=session, **self.held(), **self.own_log())

    def held(self) -> dict[str, object]:
        """What this host holds of a guest, and what it knows of logs."""
        host = self.host
        return {"life": host.life if host.role != "empty" else None, "generation": host.generation, "full": host.full,
                "committed": host.committed} | host.kept.told_to_peer()

    def own_log(self) -> dict[str, str]:
        """By which another live host of this guest knows which of the two went live later."""
        own = self.host.live.own if self.host.live else None
        if own is None:
            return {}
        return {"branch": own.head.session} | ({"went_from": own.went_from} if own.went_from else {})

    def hear(self, connection, kind, session, body, now):
        """A message over a connection that isn't attached."""
        if connection.is_server:
            if kind == HELLO and session == NO_SESSION and connection not in self.offered:
                self.greeted(connection, fields(kind, body), now)
            elif kind == READY and self.offered.get(connection, (None,))[0] == session:
                self.ready(connection, now)
            elif kind == NO and self.offered.get(connection, (None,))[0] == session:
                self.declined(connection, fields(kind, body))
            else:
                raise Malformed(f"a message of kind {kind} before an attachment")
        elif self.host.role != self.said_role:
            self.link.hang_up(connection)  # what is answered is of no use any more
        elif self.host.role == "live":
            self.answered_live(connection, kind, body, now)
        elif kind == NO:
            self.no(connection, fields(kind, body), now)
        elif kind == OVER:
            self.over(connection, fields(kind, body), now)
        elif kind == OFFER:
            self.take_offer(connection, session, fields(kind, body), now)
        elif kind == RESUME and self.may_be_resumed(session):
            self.resumed(connection, session, fields(kind, body), now)
        else:
            raise Malformed(f"a message of kind {kind} before an attachment")

    # A live host's side.

    def refuse(self, connection: Connection, why: str, level: str = "info", session: bytes = NO_SESSION, **more: Any) -> None:
        told = messages.told(NO, session, why=why, role=self.host.role, name=self.host.settings.name, **more)
        self.link.refuse(connection, told, why, level)

    def greeted(self, connection, hello, now):
        host, live = self.host, self.host.live
        if hello["version"] != messages.VERSION:
            return self.refuse(connection, f"it speaks version {hello['version']} of the link, and this host {messages.VERSION}")
        self.is_told(hello["role"], now, is_by_call=False)
        if live:
            live.heard_of(hello["name"], hello["instance"])
        is_attached = live is not None and live.session is not None and hello["session"] == live.session.hex()
        if is_attached and host.keeps and hello["role"] == "standby":
            return self.resume(connection, hello, now)
        if host.role != "live":
            host.kept.heard(hello)
            return self.refuse(connection, f"this host is {host.role}", "debug", **self.held())
        self.link.wait_for_calls(now)
        if hello["role"] == "live":
            return self.met_another_live(connection, hello)
        is_frozen = hello["role"] == "frozen"
        if is_frozen and live.turning is not None and live.turning.is_kept(hello["session"], hello["generation"], hello["committed"]):
            return self.resume_kept(connection, hello, now)
        if live.own is not None and self.is_beginning(hello):
            return self.resume_from_log(connection, hello, now)
        if live.own is not None and (upto := self.common(hello)) is not None:
            return self.over_for(connection, hello, f"it went on behind checkpoint {upto} of generation {hello['generation']}", upto=upto)
        if is_attached and live.own is None and not (is_frozen and hello["committed"] is None):
            return self.resume(connection, hello, now)
        self.withdraw(hello["name"])
        if hello["session"] is not None or is_frozen:
            return self.stale(connection, hello)
        self.leave_unfilled(hello, now)
        why = self.why_no_offer()
        if why is None and self.protecting.left(now):
            why = "the node refused to protect the guest, and is asked again later"
        if why is None and live.own is None and self.losses.left(now):
            why = f"its standby was lost within {SOON_LOST:.0f} s {self.losses.count} times in a row, and is filled again later, each time"
        if why is not None:
            return self.refuse(connection, why)
        return self.offer(connection, hello, now)

    def withdraw(self, name):
        """A host of that name has come again: what it was offered before is void."""
        for connection in [one for one, (_, standby, _) in self.offered.items() if standby[0] == name]:
            self.link.leave(connection)

    def leave_unfilled(self, hello, now):
        """A standby that has begun anew before all of the full checkpoint was sent to it holds nothing with which anybody could go live; nor
        does the host that was live before and kept the guest."""
        live = self.host.live
        is_anew = live.standby is not None and hello["name"] == live.standby[0] and hello["instance"] != live.standby[1]
        is_unfilled = not live.is_fetched if live.own is None else not live.needs_standby
        if is_anew and (live.is_unfollowed or live.mode == FILLING and is_unfilled) and self.host.task is None:
            had = "all of the full checkpoint was sent" if live.own is None else "it had all that was let out"
            self.log.info(f"{hello['name']} has begun anew, before {had}: it is filled anew")
            self.is_lost(now)
            self.link.close()
            live.alone(now)

    def is_lost(self, now: float) -> None:
        """The live host's standby is gone. At each filling the guest stands for a moment: one that dies again and again is filled each time
        later."""
        if self.link.heard_at - self.attached_at >= SOON_LOST:
            self.losses.worked()
        elif seconds := self.losses.failed(now):
            self.log.warning(f"{self.host.live.standby[0]} was lost within {SOON_LOST:.0f} s for the {self.losses.count}th time in a row: it "
                             f"is filled again in {seconds:.0f} s at the earliest")

    def goes_alone(self, now: float) -> None:
        """The live host is told that its standby has stopped for good. One that is reached still was given up, and didn't fail."""
        if self.host.live.is_linked:
            self.losses.worked()
        elif self.host.live.standby is not None:
            self.is_lost(now)

    def why_no_offer(self):
        """Why this host can't take a standby, if so."""
        host, live = self.host, self.host.live
        if host.role != "live":
            return f"this host is {host.role}"
        if host.task is not None:
            return f"this host is busy: {host.task.name}"
        if live.mode != ALONE:
            return (f"this host has a standby, {live.standby[0] if live.standby else 'a snapshot'}: 'alone' has to be told first, once "
                    "that has stopped")
        if live.own is not None and live.own.number_in(live.generation) is None:
            return "this host's own log isn't begun yet" if live.own.failed is None else f"this host's own log failed, {live.own.failed}"
        return None

    def offer(self, connection, hello, now):
        host, own = self.host, self.host.live.own
        if own is None:
            session, generation, more = secrets.token_bytes(16), host.live.generation + 1, {}
        else:
            session, generation, more = bytes.fromhex(own.head.session), own.parts[0].generation, {"joins": True}
        self.offered[connection] = session, (hello["name"], hello["instance"]), generation
        self.link.knows(connection)
        self.link.awaits(connection, "that it is ready", now)
        pages, sectors = host.shape
        connection.send(messages.told(OFFER, session, name=host.settings.name, instance=host.instance, life=host.life,
                                      generation=generation, pages=pages, sectors=sectors, **more))

    # Who has a beginning of this host's own log.

    def common(self, hello: dict) -> int | None:
        """Up to which number of its generation a standby's log is a beginning of this host's, if it goes on beyond that."""
        is_held = hello["role"] == "standby" and hello["session"] is not None and hello["life"] == self.host.life
        return self.host.live.own.common(hello["session"], hello["generation"]) if is_held and self.why_no_offer() is None else None

    def is_beginning(self, hello: dict) -> bool:
        is_held = hello["role"] == "standby" and hello["session"] is not None and hello["life"] == self.host.life
        return is_held and self.host.live.own.has(hello["session"], hello["generation"], hello["committed"])

    def resume_from_log(self, connection: Connection, hello: dict, now: float) -> None:
        """A standby gets what it lacks: this host's own, or one that comes back after it was left."""
        live, standby = self.host.live, (hello["name"], hello["instance"])
        generation, committed = hello["generation"], hello["committed"]
        is_own = live.standby == standby
        if is_own:
            acked = live.last_acked(generation)
            if live.needs_standby and acked is not None and (committed is None or committed < acked):
                return self.behind(connection, hello, f"{generation} up to checkpoint {acked}")
        elif why := self.why_no_offer():
            return self.refuse(connection, why)
        else:
            self.host.counts.attachments += 1
            live.attach_from_log(standby, generation, 0 if committed is None else committed + 1)
            self.log.info(f"{hello['name']} is back with a beginning of this host's log, up to checkpoint {committed} of generation "
                          f"{generation}: it gets what it lacks")
        told = {} if live.needs_standby else {"behind": True}
        connection.send(messages.told(RESUME, live.session, name=self.host.settings.name, instance=self.host.instance, **told))
        self.link.attach(connection, live.session, now)
        self.compare(now)
        if is_own:
            self.log.info(f"the link to {hello['name']} is back")
            live.resume(generation, committed, now)

    # Two hosts that are live.

    def met_another_live(self, connection, hello):
        """Of one life the later generation goes on, and the other host is frozen. Of two lives neither gives way."""
        host, name = self.host, hello["name"]
        mine, other = host.generation, hello["generation"]
        order = self.order(hello)
        if host.is_handing_over and hello["life"] == host.life and order < 0:
            host.task.is_live()
            return self.refuse(connection, "this host has handed its guest on", "debug")
        if host.is_draining:
            return self.refuse(connection, "this host is busy: a drain is under way", "debug")
        if hello["life"] != host.life or order == 0:
            why = "each with another guest" if hello["life"] != host.life else "each in one generation"
            self.conflict.is_so(f"two hosts are live, this one and {name}, {why}: neither gives way by itself. {KEEP_ONE}", "error")
            return self.refuse(connection, f"two hosts are live, {why}", "debug")
        if order < 0:
            self.refuse(connection, f"it lives in generation {mine} of this guest, which is earlier, and gives way", "debug")
            return self.give_way(f"{name} lives in generation {other} of this guest, and this host in {mine}")
        why = f"this host lives in generation {mine} of this guest, and {name} in {other}"
        self.conflict.is_so(f"two hosts are live: {why}, which has to give way", "error")
        return self.over_for(connection, hello, f"it lives in generation {mine} of this guest, which is later")

    def order(self, hello: dict) -> int:
        """Below 0 where another host that is live with this guest is later than this one, above where it is earlier. Which of the two went
        live behind the other's log is the later, whatever their generations."""
        own, mine, other = self.host.live.own, self.host.generation, hello["generation"]
        if own is not None and hello.get("went_from") == own.head.session:
            return -1
        if own is not None and own.went_from is not None and hello.get("branch") == own.went_from:
            return 1
        return mine - other

    def answered_live(self, connection, kind, body, now):
        """What a live host's call is answered: it looks whether the peer is live too."""
        self.link.hang_up(connection)
        if kind not in (NO, OVER):
            return
        told = fields(kind, body)
        role = "live" if kind == OVER else told["role"]
        self.is_told(role, now)
        if kind == OVER and self.host.is_handing_over:
            self.host.task.is_live()
        elif kind == OVER and not self.host.is_draining:
            self.give_way(f"{told['name']} is live too, and {told['why']}")
        elif role == "live":
            self.conflict.is_so(f"two hosts are live, this one and {told['name']}, which answers: {told['why']}", "error")
        else:
            self.link.trouble.is_over(f"{told['name']} is reached, and is {role}")

    def give_way(self, why):
        self.conflict.is_so(f"two hosts are live: {why}. This host gives way", "error")
        self.host.freeze()

    def is_told(self, role: str, now: float, is_by_call: bool = True) -> None:
        """The peer says what it is."""
        self.peer_role, self.is_by_call = role, is_by_call
        self.live_at, self.says_every = now if role == "live" else None, SAYS_AGAIN
        if role != "live":
            self.conflict.is_over("one host is live, not two")

    def parted(self, heard_at: float) -> None:
        """The attached link is over, over which something came last then: a live host's standby was told so that it is live."""
        if self.host.live is None and not self.peer_stands:
            self.live_at, self.says_every, self.is_by_call = heard_at, 0.0, True

    @property
    def peer_stands(self) -> bool:
        """Whether the live host has stopped, and keeps its guest, as it said over the link."""
        return self.host.standby is not None and self.host.standby.is_kept

    def is_gone(self) -> None:
        """Nothing listens any more where this host has called the peer: its daemon has ended."""
        if self.is_by_call:
            self.live_at = None

    def goes_live(self) -> None:
        """This host is live from now on: that the peer is too it has to hear again."""
        self.live_at = None

    def heard_live_at(self) -> float | None:
        """When the peer said last that it is live; None where it said otherwise since, or its daemon has ended. Over the link of its standby
        each message says so."""
        link = self.host.link
        says_all_the_time = link.is_up and self.host.live is None and not self.peer_stands
        return link.heard_at if says_all_the_time else self.live_at

    def may_live(self, now: float, is_fenced: bool) -> bool:
        """Whether the peer may be live, by what it said. One that is made sure to be off has nothing under way any more."""
        at, settings = self.heard_live_at(), self.host.settings
        silence = max(settings.link_ms, 0.0 if self.link.is_up else self.says_every)
        if is_fenced:
            silence = min(settings.link_ms / 2, LEAST_SILENCE + 2 * LONG * settings.epoch_ms)
        return at is not None and now - at < silence

    def has_said_live(self, since: float) -> bool:
        """Whether the peer has said since then that it is live, and has not just ended the link over which it said so."""
        at = self.heard_live_at()
        return at is not None and at > since and (self.link.is_up or self.says_every > 0.0)

    def are_two_live(self, now: float) -> bool:
        return self.host.role == "live" and self.live_at is not None and now - self.live_at < SAYS_AGAIN

    def role_of_peer(self, now):
        """What it said last; the standby of a live host is that as long as it doesn't say otherwise."""
        if self.peer_stands:
            return "frozen"
        return "standby" if self.host.session and self.host.live and not self.are_two_live(now) else self.peer_role

    def stale(self, connection, hello):
        """A host comes with an attachment that isn't this one's. Where it has no full checkpoint it has nothing to lose."""
        host = self.host
        if not hello["full"]:
            return self.over_for(connection, hello, self.why_over(hello))
        if self.went_from(hello):
            return self.over_for(connection, hello, "it went live behind what is held there")
        if hello["life"] == host.life and hello["generation"] > host.generation:
            self.link.refused.say("error", f"{hello['name']} holds generation {hello['generation']} of this guest, and this host lives "
                                           f"in {host.generation}: it may be this host that is stale", "stale")
            return self.refuse(connection, "this host lives in an earlier generation")
        if hello["life"] != host.life:
            return self.refuse(connection, "this host lives another life: what is held there is another guest")
        if hello["life"] == host.life and hello["role"] == "frozen" and hello["generation"] == host.generation:
            return self.refuse(connection, "two hosts have this guest, in one generation")
        return self.over_for(connection, hello, "that attachment is over")

    def went_from(self, hello: dict) -> bool:
        """Whether this host went live behind that host's log."""
        own = self.host.live.own
        return own is not None and own.went_from is not None and own.went_from in (hello["session"], hello.get("branch"))

    def why_over(self, hello):
        """What has become of the attachment of a standby without a full checkpoint."""
        host = self.host
        if hello["life"] == host.life and hello["generation"] > host.generation:
            return "the attachment that was offered never began"
        return "its filling begins again" if host.live.pacer.again else "that attachment is over"

    def over_for(self, connection, hello, why, **more):
        self.link.refuse(connection, messages.told(OVER, NO_SESSION, why=why, name=self.host.settings.name, **more), f"{hello['name']}: {why}")

    def resume_kept(self, connection: Connection, hello: dict, now: float) -> None:
        """Who keeps the guest, from which this host went live, is told to follow."""
        turn = self.host.live.turning
        connection.send(messages.told(RESUME, turn.kept_in, name=self.host.settings.name, instance=self.host.instance))
        self.link.attach(connection, turn.kept_in, now)
        self.log.info(f"the link to {hello['name']} is back")
        if not turn.left:
            turn.tell(self.host.live, now)
        self.compare(now)

    def resume(self, connection, hello, now):
        live = self.host.live
        generation, committed = hello["generation"], hello["committed"]
        if hello["instance"] != live.standby[1] or generation > live.generation:
            raise Malformed("another standby under this session's name")
        if not live.stands_in(generation):
            return self.behind(connection, hello, f"{live.generation}")
        if (acked := live.last_acked(generation)) is not None and (committed is None or committed < acked):
            return self.behind(connection, hello, f"{generation} up to checkpoint {acked}")
        connection.send(messages.told(RESUME, live.session, name=self.host.settings.name, instance=self.host.instance))
        self.link.attach(connection, live.session, now)
        self.log.info(f"the link to {hello['name']} is back")
        self.compare(now)
        live.resume(generation, committed, now)
        if self.host.keeps:
            self.host.tell_kept(now)

    def behind(self, connection, hello, acknowledged):
        """This host's standby has less than it acknowledged: frames went out by what it has lost."""
        why = (f"LogBehind: it ends in generation {hello['generation']} at checkpoint {hello['committed']}, and acknowledged generation "
               f"{acknowledged}")
        self.log.error(f"the log of {hello['name']} isn't resumed, {why}; its disk doesn't keep what it says is synced")
        self.link.refuse(connection, messages.told(OVER, NO_SESSION, why=why, name=self.host.settings.name), why)

    def ready(self, connection, now):
        """The standby waits for the full checkpoint."""
        host, live = self.host, self.host.live
        session, standby, generation = self.offered.pop(connection)
        why = self.why_no_offer()
        if why is None and generation != (live.generation + 1 if live.own is None else live.own.parts[0].generation):
            why = f"this host lives in generation {live.generation} since, and offered {generation}"
        if why is None:
            try:
                if live.own is None:
                    live.attach(session, standby, now)
                else:
                    live.attach_from_log(standby, generation, 0)
            except Refused as refused:
                why = f"the node refuses to protect the guest: {refused}"
                self.log.error(f"{why}; it is asked again in {self.protecting.failed(now):.0f} s at the earliest")
        if why is not None:
            return self.refuse(connection, why, session=session)
        self.protecting.worked()
        host.counts.attachments += 1
        self.link.attach(connection, session, now)
        self.attached_at = now
        told = (f"its full checkpoint of generation {live.generation} has at most {live.pending[0].total} bytes" if live.own is None else
                f"it is filled from this host's log, from generation {generation} on")
        self.log.info(f"{standby[0]} is the new standby: {told}")
        self.compare(now)

    def declined(self, connection, told):
        """The host that was offered an attachment can't be a standby."""
        self.link.leave(connection)
        self.link.told_off(connection, "warning", f"{told['name']} can't be a standby: {told['why']}")

    # Both sides, once they are joined.

    def compare(self, now: float) -> None:
        """Tells the peer what this host is configured with, and hears the same of it."""
        self.link.send(self.drift.message(self.link.session), now)

    def compared(self, body: bytes, now: float) -> None:
        """What the peer says of its configuration, or of its log. Raises Malformed."""
        live = self.host.live
        if (log := messages.log_of(body)) is not None:
            return self.host.kept.heard_of_log(*log, now)
        self.drift.told(body, (live.standby if live else self.host.peer)[0])

    # The side of a host that isn't live.

    def over(self, connection, told, now):
        self.link.leave(connection)
        self.is_told("live", now)
        host, why = self.host, f"{told['name']} is live, and {told['why']}"
        if host.is_handing_over:
            return host.task.is_live()
        if host.role == "frozen" and host.live.mode != PAIRED:
            self.link.dial_at = now + AGAIN
            return self.link.trouble.is_so(f"{why}; but the guest that is frozen here went on without a standby, so clients may have been "
                                           "told what isn't known there: it is kept until this daemon is started again")
        if "upto" in told and self.can_cut_back(told["upto"]):
            self.log.info(f"{why}: what this host has beyond that was never let out, and goes")
            host.cut_back(told["upto"])
        elif host.role in ("standby", "frozen"):
            self.give_up(why)
        self.link.dial_at = now

    def can_cut_back(self, number: int) -> bool:
        standby = self.host.standby
        return (standby is not None and standby.logged is not None and not standby.catching and standby.committed is not None and
                number < standby.committed and standby.logged.generation == standby.generation)

    def give_up(self, why):
        """What this host holds is of no use to anybody."""
        if self.host.full:
            self.log.warning(f"{why}: what this host holds is stale, and it is given up")
        else:
            self.log.warning(f"{why}: this host, which has no full checkpoint, begins anew")
        self.host.become_empty()

    def no(self, connection, told, now):
        self.is_told(told["role"], now)
        if "life" in told:  # it may be that the peer doesn't reach this host, and calls it in vain
            self.host.kept.heard(told)
        self.link.hang_up(connection)
        if told["role"] == "live":
            self.link.trouble.is_so(f"{told['name']} doesn't let this host in: {told['why']}")
        else:
            self.link.trouble.is_so(f"{told['name']} is {told['role']}, and nobody lives there", "info")
        is_logged = told["role"] == "standby" and self.host.standby is not None and self.host.standby.logged is not None
        if self.host.role == "standby" and not self.host.full and told["role"] in ("empty", "standby") and not is_logged:
            self.give_up(f"{told['name']}, which had the guest, is {told['role']}")

    def turned_away(self, told):
        """The live host has thought better of the attachment that it offered."""
        self.link.close()
        self.is_told(told["role"], self.link.now())
        self.give_up(f"{told['name']} doesn't take this host as its standby: {told['why']}")

    def take_offer(self, connection, session, offer, now):
        host = self.host
        if host.role != "empty":
            raise Malformed("an offer that wasn't asked for")
        try:
            host.stand_by(session, offer)
        except Refused as refused:
            return self.decline(connection, session, f"the node refuses a guest of {offer['pages']} pages: {refused}", now)
        except OSError as error:
            return self.decline(connection, session, f"the state folder {host.settings.state} can't be written: {error.strerror}", now)
        except Unprepared as unprepared:
            host.become_empty()  # its node waits for that guest
            return self.decline(connection, session, str(unprepared), now)
        self.standing_by.worked()
        self.met(connection, session, offer, now)
        self.link.send(messages.message(READY, session), now)
        self.compare(now)

    def decline(self, connection, session, why, now):
        """This host can't be a standby: it says so, and asks again later, before the live host has done anything for it."""
        seconds = self.standing_by.failed(now)
        self.link.trouble.is_so(f"this host can't be a standby: {why}; it asks again, each time later", "error")
        try:
            connection.send(self.declining(why, session))
        except Closed:
            pass
        self.link.leave(connection)
        self.link.dial_at = now + seconds

    def declining(self, why: str, session: bytes) -> bytes:
        """What tells the live host that this one can't be its standby."""
        return messages.told(NO, session, why=why[:200], role=self.host.role, name=self.host.settings.name)

    def may_be_resumed(self, session: bytes) -> bool:
        """Whether this host is a standby in that attachment, or keeps the guest that it has handed on in it."""
        host = self.host
        if host.standby is not None and host.standby.logged is not None:
            return True
        return session == host.session and (host.standby is not None or host.keeps)

    def resumed(self, connection, session, told, now):
        if self.host.standby is not None:
            self.host.standby.resume(session, told.get("behind", False))
            self.host.kept.attached()
        self.met(connection, self.host.session, told, now)
        self.log.info(f"the link to {told['name']} is back")
        self.compare(now)

    def met(self, connection, session, told, now):
        self.peer_role, self.host.peer = "live", (told["name"], told["instance"])
        self.conflict.is_over("one host is live, not two")
        self.link.attach(connection, session, now)


def go_live(session, generation, number):
    """What a live host that has drained tells its standby."""
    return messages.message(GO_LIVE, session, messages.NUMBER.pack(generation, number))
