"""One user: the turns of its clients, the items that are unanswered, the replies that wait until they are written, and the times of
snapshots.

It does no I/O of its own: it only calls methods of connections (`ends`), of the store and of its writer.
"""
import asyncio
import time
from collections import deque
from functools import partial
from typing import TYPE_CHECKING, Callable, Deque, Dict, List, Optional, Set

from .allowance import Allowance
from .ends import Client, Link
from .items import Item, Told, words_of
from .local import LocalClient
from .sessions import KEPT, Long, NoMemory, Otherwise, Sessions, Task, drop_all, put_back, read_all, shown, tell_again, wait_for
from .store import Change, Damaged, Kept, Snapshot, Store, StoreFault
from .writer import Writer

if TYPE_CHECKING:
    from .hosts import Seat

# Maximum of waiting connections of a user. The next one is closed without a byte.
MAX_WAITING = 8
# Limits of what is sent ahead of replies: a few milliseconds of work.
MAX_SENT = 150
MAX_BYTES = 1 << 20
# A snapshot is due after so many seconds, records or bytes since the last one.
SECONDS_OF_BUDGET = 10.0
MAX_RECORDS = 4000
MAX_RECORD_BYTES = 2 << 20
# While steps are pending, it is due at so many times these limits.
BUDGETS_TO_WAIT = 4
# Putting back is retried so long after a lack of memory.
SECONDS_BETWEEN_TRIES = 1.0
Note = Callable[..., None]
Hear = Callable[[Item, bytes], None]


class User:
    """A user and its kept state: a snapshot, and the records since."""

    # Without slots, an object with more than 30 attributes is slower to read, and these are read at each command.
    __slots__ = (
        "allowance away_since client is_ready is_settling link local locals name number on_reply quota records seat sessions stopped "
        "waiting _again _asking _burst _burst_sent _bytes _bytes_held _bytes_sent _ended _heard _held _is_near_an_end _is_over "
        "_is_to_try_again _is_wanted _is_writing _long _note _parts _put_back_since _reading _renew _seconds _sent _seq _since "
        "_snapshot _store _task _timer _writer _written"
    ).split()

    def __init__(self, name: str, kept: Kept, store: Store, writer: Writer, note: Note, renew: Callable[["User"], None]):
        self.name, self.records, self.number = name, kept.records, kept.seq + len(kept.records)
        self.stopped = self.quota = ""
        self.seat: Optional[Seat] = None
        self.away_since = time.monotonic()
        self.allowance: Optional[Allowance] = None
        # Called with each command and its reply, if it is set.
        self.on_reply: Optional[Hear] = None
        self.waiting: Deque[Client] = deque()
        self.client: Optional[Client] = None
        # Clients within this process: all, those that wait for their transactions, and the one whose transaction is under way.
        self.locals: Set[LocalClient] = set()
        self._asking: Deque[LocalClient] = deque()
        self.local: Optional[LocalClient] = None
        self.link: Optional[Link] = None
        self.is_ready = self.is_settling = False
        self.sessions = Sessions()
        self._seq, self._parts = kept.seq, {part.id: part for part in kept.parts}
        self._store, self._writer, self._note, self._renew = store, writer, note, renew
        self._task: Optional[Task[None]] = None
        self._reading: Optional[Task[None]] = None
        self._burst: List[bytes] = []
        self._heard: List[bytes] = []
        self._burst_sent = 0
        running = [Item(kept.running, words_of(kept.running[:-1]))] if kept.running else []
        self._again: Deque[Item] = deque(running)
        self._long: Optional[Long] = None
        self._sent: Deque[Item] = deque()
        self._bytes_sent = 0
        self._written: List[Told] = []
        self._held: List[bytes] = []
        self._ended: List[LocalClient] = []
        self._bytes_held = 0
        self._snapshot: Optional[Snapshot] = None
        self._is_writing = self._is_near_an_end = self._is_over = self._is_to_try_again = False
        self._timer: Optional[asyncio.TimerHandle] = None
        # The computing time since the snapshot is unknown here, so another one is soon taken.
        self._is_wanted = bool(kept.records)
        self._since = self._put_back_since = 0.0
        self._seconds = SECONDS_OF_BUDGET if kept.records else 0.0
        self._bytes = sum(len(record.item) for record in kept.records)

    # Events.

    def enter(self, client: Client) -> None:
        """Takes a client that has identified itself."""
        if self.stopped:
            client.deny()
        elif len(self.waiting) >= MAX_WAITING:
            client.turn_away()
        else:
            self.waiting.append(client)
            self.go_on()

    def leave(self, client: Client) -> None:
        """Notes that a client is gone. Its items at the server are still done."""
        if client in self.waiting:
            self.waiting.remove(client)
        self.go_on()

    def ask_for_turn(self, local: LocalClient) -> None:
        """Queues a transaction of a client within this process, after all items that have come."""
        local.behind = (self.client, self.client.position() if self.client is not None else 0)
        self._asking.append(local)
        self.go_on()

    def read(self, task: Task[None]) -> None:
        """Schedules a read-only task between two commands, when no steps are pending. It replaces one that still waits."""
        self._reading = task
        self.go_on()

    def begin(self, link: Link, is_new: bool) -> None:
        """Takes a connection to the server: to a new one, where all is put back, or to the same."""
        self.link = link
        if is_new:
            self.is_ready = self.is_settling = False
            self._put_back_since = time.monotonic()
        self.go_on()

    def lose_link(self) -> None:
        """Drops the connection to the server. Items without a reply are sent again."""
        if self.link is not None:
            self.link.close()
        self.link, self.is_ready, self._task = None, False, None
        again = [*self._sent]
        if self._long is not None:
            again = [item for item in again if item is not self._long.piece] + [self._long.item(self._long.left_at_snapshot)]
        self._again.extendleft(reversed(again))
        self._sent.clear()
        self._long = None
        self._bytes_sent = 0
        self._is_to_try_again = False
        if self._timer is not None:
            self._timer.cancel()
            self._timer = None

    def hear(self, replies: List[bytes]) -> None:
        """Takes replies of the server."""
        try:
            if self._task is not None:
                self._heard += replies
                self._hear_task()
            else:
                now = time.monotonic()
                self._seconds += now - self._since if self._sent else 0.0
                self._since = now
                for reply in replies:
                    self._take(reply)
                is_over = self._seconds > SECONDS_OF_BUDGET or len(self.records) > MAX_RECORDS or self._bytes > MAX_RECORD_BYTES
                self._is_over = is_over
        except (Otherwise, ValueError, IndexError) as fault:
            self.stop(f"the program replied {fault}")
        else:
            self.go_on()

    def stop(self, why: str) -> None:
        """Stops the user: ends its connections, and lets in no more."""
        self.lose_link()
        self.stopped = why
        self._again.clear()
        self.abort_clients()
        for local in [*self.locals]:
            local.abort(f"{self.name} is not let in: {why}")
        self.local = None
        self._asking.clear()
        self._note("stopped", user=self.name, why=why)

    def abort_clients(self, has_right: bool = False) -> None:
        """Ends the user's connections. Those that wait are denied, or only aborted if `has_right`."""
        for client in self.waiting:
            (client.abort if has_right else client.deny)()
        self.waiting.clear()
        if self.client is not None:
            self.client.abort()
            if self.stopped:
                self.client = None

    # Actions.

    def go_on(self) -> None:
        """Does all that can be done now."""
        while not self.stopped:
            self._send()
            self._answer_last()
            self._keep()
            if self.link is None or self._sent or not (self._begin_task() or self._change_turn() or self._change_client()):
                break
        if self.link is not None and not self.link.left and not self._sent and len(self._heard) == self._burst_sent:
            self._renew_link()
        if self.link is not None:
            is_full = self.local is None and self.client is not None and self.client.is_full
            if self.link.is_held != (is_held := self._bytes_held > MAX_BYTES or is_full):
                self.link.hold(is_held)

    def _send(self) -> None:
        """Sends as many items as may be unanswered."""
        link, sent = self.link, self._sent
        if link is None or self._task is not None:
            if link is not None:
                self._send_burst(link)
            return
        if not self.is_ready or self.is_settling and self.local is None or self._has_task():
            return
        items = []
        most = 1 if self._is_near_an_end else MAX_SENT
        while len(sent) < most and self._bytes_sent < MAX_BYTES and link.left and (item := self._next()):
            if not sent:
                self._since = time.monotonic()
            sent.append(item)
            if not item.last_reply:
                items.append(item.raw)
                self._bytes_sent += len(item.raw)
                link.left -= 1
        if items:
            link.send(b"".join(items))

    def _next(self) -> Optional[Item]:
        if self._long is not None:
            return None if self._sent else self._long.next_piece(self.sessions, time.monotonic())
        if self._again:
            item: Optional[Item] = self._again.popleft()
        elif self.local is not None:
            item = self.local.next_item()
        else:
            item = None if self._asking and self._is_next() else self._of_client()
        if item is None or self._is_near_an_end:
            return item and item._replace(last_reply=self.sessions.refusal(item.words) or item.last_reply)
        if item.words and item.words[0] == b"ADVANCE" and (long := Long.of(item, self.sessions)):
            self._long = long
            return long.next_piece(self.sessions, time.monotonic())
        return item

    def _is_next(self) -> bool:
        """Whether the first queued transaction is next: no earlier item of the client is left."""
        client, position = self._asking[0].behind
        return client is None or client is not self.client or not client.has_item_before(position)

    def _change_turn(self) -> bool:
        """Begins a transaction at its turn, or ends one that is done. Both happen only while nothing is unanswered."""
        if self.local is not None:
            if self._again or self._long is not None or not self.local.has_ended():
                return False
            self.local.end(self.number)
            self._ended.append(self.local)
            self.local = None
            return True
        if not self._asking or not self._is_next() or not self.is_ready or self.is_settling or not self._is_idle():
            return False
        local = self._asking.popleft()
        if not local.is_lost:
            self.local = local
            local.begin(self.number)
        return True

    def _of_client(self) -> Optional[Item]:
        """The next item of the client. If it asks for more steps than are left today, the connection ends instead."""
        item = self.client.next_item() if self.client is not None else None
        if item is None or self.client is None or self.allowance is None or self.allowance.takes(item.words):
            return item
        self.client.take_no_more()
        if self.allowance.use_up():
            self._note("no steps left today", user=self.name)
        return None

    def _take(self, reply: bytes) -> None:
        """Takes the reply to the first unanswered item. Raises `Otherwise` if it cannot be that reply."""
        if not self._sent:
            raise Otherwise(f"{shown(reply)} to nothing")
        item = self._sent.popleft()
        self._bytes_sent -= len(item.raw)
        reply = self.sessions.hear(item.words, reply, self.number + 1)
        if self._long is not None and item is self._long.piece:
            if reply.startswith(b"OK ") and not self._long.hear(self.sessions.by_name[item.words[1]], time.monotonic()):
                return
            item, self._long = self._long.item(self._long.left_at_snapshot), None
        if item.words and item.words[0] in KEPT and reply[:3] == b"OK ":
            record = Told(item.raw, reply)
            self.number += 1
            self._bytes += len(item.raw)
            self.records.append(record)
            self._written.append(record)
            if self._is_near_an_end or item.words[0] == b"RESTORE":
                self._is_near_an_end = self.sessions.are_near_an_end()
        elif self.allowance is not None:
            self.allowance.gives_back(item.words)
        if self.on_reply is not None:
            self.on_reply(item, reply)
        self._hold(reply)
        self._answer_last()

    def _hold(self, reply: bytes) -> None:
        self._held.append(reply)
        self._bytes_held += len(reply)

    def _answer_last(self) -> None:
        """Replies to items that do not go to the server, when their turn has come."""
        while self._sent and self._sent[0].last_reply:
            self._hold(self._sent.popleft().last_reply)

    def _keep(self) -> None:
        """Writes records, then sends their replies. Within a transaction it sends replies at once, and writes at the end."""
        has_change = self.local is None and bool(self._written or self._snapshot)
        is_told = bool(self._held or self._ended) and (self.local is not None or self._writer.may_tell())
        if self._is_writing or not (has_change or is_told):
            return
        held, self._held = self._held, []
        ended, self._ended = self._ended, []
        if not has_change:
            self._tell(held, ended)
            return
        change = Change(self.name, self._written, self._snapshot)
        self._written, self._snapshot, self._is_writing = [], None, True
        if self._writer.write(change, partial(self._note_written, held, ended)):
            self._tell(held, ended)

    def _note_written(self, held: List[bytes], ended: List[LocalClient]) -> None:
        self._tell(held, ended)
        self.go_on()

    def _tell(self, held: List[bytes], ended: List[LocalClient]) -> None:
        """Sends replies, and reports the end of transactions that are completely written."""
        self._is_writing = False
        replies = b"".join(held)
        self._bytes_held -= len(replies)
        client = self.local or self.client
        if client is not None and replies:
            client.tell(replies)
        for local in ended:
            local.note_written()

    def _is_quiet(self) -> bool:
        """Whether nothing is unanswered, being written, or waiting to be sent."""
        return not (self._sent or self._task or self._is_writing or self._written or self._held or self._ended or self._snapshot)

    def _is_idle(self) -> bool:
        """Whether all work that was taken is done."""
        return self._is_quiet() and not self._again and self._long is None and self.local is None

    def _change_client(self) -> bool:
        """Ends the connection of a client without more items, and requests a snapshot; or lets the next client in."""
        if self.client is not None:
            if not self.client.has_ended() or not self.is_ready or not self._is_idle():
                return False
            self.client.finish()
            self.client, self.away_since = None, time.monotonic()
            self._is_wanted = self.number != self._seq
        elif self.waiting and self.is_ready and not self.is_settling and self._is_idle():
            self.client = self.waiting.popleft()
            self.client.let_in()
        else:
            return False
        return True

    def _renew_link(self) -> None:
        """Replaces the connection to the server, which has had its maximum number of items."""
        if self.link is not None:
            self.link.close()
            self.link = None
            self._renew(self)

    # Putting back, and snapshots.

    def _begin_task(self) -> bool:
        """Begins to put all back, to take a snapshot or to read, if that is due and nothing is unanswered."""
        if self._task is not None or self.is_ready and not self._has_task():
            return False
        if not self.is_ready:
            self._task = None if self._is_writing or self._timer is not None else self._put_back()
        elif self._is_due():
            self._task = self._take_snapshot()
        elif self._is_to_read():
            self._task, self._reading = self._reading, None
        if self._task is not None:
            self._step(None)
            return True
        return False

    def _step(self, replies: Optional[List[bytes]]) -> None:
        """Runs the task until it yields items or ends."""
        assert self._task is not None
        self._burst, self._heard, self._burst_sent = [], [], 0
        try:
            self._burst = self._task.send(replies)  # type: ignore[arg-type]
        except StopIteration:
            self._task = None
        except NoMemory as fault:
            self._task, self._is_to_try_again = None, True
            self._timer = asyncio.get_running_loop().call_later(SECONDS_BETWEEN_TRIES, self._try_again)
            self._note("put back later", user=self.name, why=f"the program replied {fault}")
        except Damaged as damage:
            self.stop(f"what is kept is damaged: {damage}")
        except StoreFault as fault:
            self.stop(str(fault))
        except (Otherwise, ValueError, IndexError) as fault:
            self.stop(f"the program replied {fault}")

    def _send_burst(self, link: Link) -> None:
        """Sends the items of the task, or as many as this connection may have."""
        items = self._burst[self._burst_sent : self._burst_sent + link.left]
        if items:
            link.send(b"".join(items))
            link.left -= len(items)
            self._burst_sent += len(items)

    def _hear_task(self) -> None:
        if len(self._heard) > self._burst_sent:
            raise Otherwise(f"{shown(self._heard[-1])} to nothing")
        if len(self._heard) == len(self._burst):
            self._step(self._heard)

    def _try_again(self) -> None:
        self._timer = None
        self.go_on()

    def _put_back(self) -> Task[None]:
        """Puts all sessions back at a new server."""
        if self._is_to_try_again:
            yield from drop_all()
            self._is_to_try_again = False
        self.sessions = Sessions(self._parts.values())
        for session in self.sessions.by_name.values():
            yield from put_back(session, partial(self._store.part, self.name))
        yield from tell_again(self.sessions, self.records, self._seq)
        self.is_ready = True
        self._is_near_an_end = self.sessions.are_near_an_end()
        self._note("ready", user=self.name)

    def _has_task(self) -> bool:
        """Whether a task is to begin as soon as nothing is unanswered."""
        return (self._is_over or self._is_wanted) and self._is_due() or self._reading is not None and self._is_to_read()

    def _is_due(self) -> bool:
        """Whether a snapshot is to be taken as soon as nothing is unanswered. Within a transaction none is."""
        if self.local is not None or not (self._is_over or self._is_wanted):
            return False
        if self.number == self._seq and (self._long is None or self._long.left == self._long.left_at_snapshot):
            return False
        if not self.sessions.have_pending():
            return True
        most = max(self._seconds / SECONDS_OF_BUDGET, len(self.records) / MAX_RECORDS, self._bytes / MAX_RECORD_BYTES)
        return most > BUDGETS_TO_WAIT

    def _is_to_read(self) -> bool:
        """Whether a reading task is to begin as soon as nothing is unanswered. Within a transaction none is."""
        if self._reading is None or self.local is not None or self._long is not None or self._again or self.is_settling:
            return False
        return not self.sessions.have_pending()

    def _take_snapshot(self) -> Task[None]:
        """Reads what has changed, to be written in place of the records since the last snapshot."""
        changed = yield from read_all(self.sessions, self._seq)
        ids = self.sessions.ids()
        self._parts.update((part.id, part._replace(symbols=b"", frames=b"")) for part in changed)
        self._parts = {id: self._parts[id] for id in sorted(ids)}
        running = self._long.item(self._long.left).raw if self._long is not None else b""
        self._snapshot = Snapshot(self.number, changed, ids, running)
        if self._long is not None:
            self._long.left_at_snapshot = self._long.left
        self._seq, self.records, self._written = self.number, [], []
        self._seconds, self._bytes, self._is_wanted, self._is_over = 0.0, 0, False, False
        self._is_near_an_end = self.sessions.are_near_an_end()

    def settle(self) -> None:
        """Stops taking items, and takes a snapshot once nothing is unanswered."""
        self.is_settling = self._is_wanted = True
        self.go_on()

    def is_settled(self) -> bool:
        """Whether the end of a server would lose nothing but time."""
        return bool(self.stopped) or self.link is None or self.local is None and self._is_quiet() and not self._is_due()

    def known(self) -> Dict[str, object]:
        """Its entry in the status."""
        state = "stopped" if self.stopped else "ready" if self.is_ready else "is put back"
        known = {"state": state, "why": self.stopped or None, "records": len(self.records), "bytes": self._bytes}
        return {**known, "left": round(self._seconds_left(), 1), "today": self.allowance.known() if self.allowance else {}}

    def _seconds_left(self) -> float:
        """About how many seconds putting back still takes: steps since the snapshot are computed again."""
        if self.stopped or self.is_ready:
            return 0.0
        gone = time.monotonic() - self._put_back_since if self.link is not None else 0.0
        return max(self._seconds - gone, 0.0)

    def is_away(self) -> bool:
        """Whether it has no client, and nothing is unanswered."""
        return self.client is None and not (self.waiting or self.locals) and self.link is not None and self.is_ready and self._is_idle()

    def is_leaving(self) -> bool:
        """Whether it is away, will be after a snapshot, or was stopped."""
        return self.client is None and not (self.waiting or self.locals) and not self.sessions.have_pending()

    def is_kept(self) -> bool:
        """Whether all is in its snapshot, so that it may be forgotten while it is away."""
        return self.number == self._seq and not self.sessions.have_pending()

    def wait_for_pending(self) -> None:
        """Begins to wait for pending steps while it is away. A snapshot follows."""
        if self._task is None and self.sessions.have_pending():
            self._task, self._is_wanted = wait_for(self.sessions.by_name.values()), True
            self._step(None)
            self.go_on()

    def is_busy(self) -> bool:
        """Whether something of it is being written."""
        return self._is_writing
