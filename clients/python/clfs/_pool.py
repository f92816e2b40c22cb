"""Connections for threads."""

from __future__ import annotations

import contextlib
import os
import threading
import weakref
from typing import Any, Callable, Generic, Iterator, List, Optional, Tuple, TypeVar, Union

from ._log import Log, connect
from .replies import ClfsError, Closed

T = TypeVar("T")
Path = Union[str, "os.PathLike[str]"]


def _itself(log: Log) -> Log:
    return log


class Pool(Generic[T]):
    """Connections to a service for threads, `size` at a time, and with each what was prepared of it once, as its area:

        pool = clfs.Pool("place", size=8, prepare=lambda log: log.area("orders", largest=1000))
        with pool.lend() as orders:
            orders.append(b"commit", flush=True)

    `lend` gives what `prepare` gave, or the `Log` if there is no `prepare`. A connection is made when it is wanted first, which may take `timeout`
    seconds, as `connect`. One that has ended isn't lent again: a new one is made and prepared, since areas end with their connection. What was
    under way at its end is told to who had it; the pool does nothing anew. In a child that this process forks the pool begins without connections.
    """

    def __init__(
        self,
        place: Path,
        *,
        size: int,
        prepare: Callable[[Log], T] = _itself,  # type: ignore[assignment]
        timeout: Optional[float] = 10,
    ) -> None:
        if size < 1:
            raise ValueError(f"a pool of {size} connections")
        self.place = os.fspath(place)
        self.size = size
        self.timeout = timeout
        self._prepare = prepare
        self._stock: _Stock[T] = _Stock(size)
        _pools.add(self)

    def __enter__(self) -> Pool[T]:
        return self

    def __exit__(self, kind: Any, error: Any, trace: Any) -> None:
        self.close()

    @contextlib.contextmanager
    def lend(self) -> Iterator[T]:
        """Lends a connection for a `with` block. Waits while all are lent."""
        stock = self._stock
        lent = stock.take()
        try:
            if lent is None:
                lent = self._connect()
            yield lent[1]
        except BaseException as error:
            # (what was interrupted may be in the middle of a call)
            if lent is not None and not isinstance(error, Exception):
                lent[0].kill()
            raise
        finally:
            stock.give_back(lent)

    def close(self) -> None:
        """Closes the connections; one that is lent, when it is given back. Later calls of `lend` raise `Closed`."""
        self._stock.close()

    def _connect(self) -> Tuple[Log, T]:
        log = connect(self.place, self.timeout)
        try:
            return log, self._prepare(log)
        except BaseException:
            _close(log)
            raise

    def _leave(self) -> None:
        """Begins anew in a child that was forked, perhaps while a thread that the child hasn't held the lock."""
        self._stock = _Stock(self.size, self._stock.is_closed)


class _Stock(Generic[T]):
    """The connections of a pool in one process: those that are idle, and how many are lent."""

    def __init__(self, size: int, is_closed: bool = False) -> None:
        self.is_closed = is_closed
        self._size = size
        self._idle: List[Tuple[Log, T]] = []
        self._lent = 0
        self._changed = threading.Condition()

    def take(self) -> Optional[Tuple[Log, T]]:
        """Waits until fewer than all are lent, and takes one that is idle. None if another one may be made, which counts as lent already."""
        with self._changed:
            self._changed.wait_for(lambda: self.is_closed or self._lent < self._size)
            if self.is_closed:
                raise Closed("the pool was closed")
            self._lent += 1
            found = self._idle.pop() if self._idle else None
        if found is None or not found[0].is_over:
            return found
        _close(found[0])
        return None

    def give_back(self, lent: Optional[Tuple[Log, T]]) -> None:
        with self._changed:
            self._lent -= 1
            is_kept = lent is not None and not self.is_closed and not lent[0].is_over
            if lent is not None and is_kept:
                self._idle.append(lent)
            self._changed.notify()
        if lent is not None and not is_kept:
            _close(lent[0])

    def close(self) -> None:
        with self._changed:
            self.is_closed = True
            idle, self._idle = self._idle, []
            self._changed.notify_all()
        for log, _ in idle:
            _close(log)


def _close(log: Log) -> None:
    with contextlib.suppress(ClfsError):
        log.close()


# The pools, for a child that is forked.
_pools: weakref.WeakSet[Pool[Any]] = weakref.WeakSet()


def _leave_all() -> None:
    for pool in list(_pools):
        pool._leave()


os.register_at_fork(after_in_child=_leave_all)
