"""A client of the log manager clfs: it starts the program over a folder, or comes to a service, sends lines of the script and reads the replies.

    import clfs

    clfs.format("log", block_sectors=8, container_sectors=1024, containers=4)
    with clfs.Log("log") as log:
        orders = log.area("orders", largest=1000)
        first = orders.append(b"begin")
        last = orders.append(b"commit", previous=first, undo_next=first, flush=True)
        for record in orders.records(last, clfs.Mode.PREVIOUS):
            print(record.lsn, record.data)

Several programs use one log by a service. Each comes and goes as it likes, and its connection is a `Log` too:

    with clfs.Service("log", "place", clients=8):
        with clfs.connect("place") as log:
            log.area("orders", largest=1000).append(b"more", flush=True)

A call waits for its reply. `send_append`, `send_read` and so on don't: they give a `Pending`, whose `result()` waits. Any number of lines may
be under way. Replies come in the order of the lines.

What may go wrong, all of it a `ClfsError`:

- `Refused`: the log refused the call and told why. Each refusal is a class of its own, as `Full`, with the fields that the log told.
- `Ended`: the program has ended or was killed. Nothing waits for it, and each line without a reply is answered so. Of a service it is `ServiceEnded`.
- `NoService`, `NoFreeNumber`: nobody serves there; no number was free in time.
- `UnknownReply`: the program answered what isn't in the language. The handle is of no use after it.
- `LineTooLong`: the line would pass the limit of the language. It wasn't sent.
- `TimedOut`, `OtherProcess`, `InUse`: the time of the call was over; the handle belongs to the process from which this one was forked; a signal's
  handler used it in the middle of a call.

A record is safe once a flush was answered: `append(flush=True)`, `flush`, `flush_to`, `restart`, `advance`. Leaving the `with` block doesn't
flush. Calls of several threads on one handle are served one after another: a thread waits until the reply to another one's line is there. `Pool`
lends connections to threads, so that their flushes share syncs.
"""

from . import replies
from ._log import Area, Cursor, Log, Pending, RestartCursor, attach, connect, format
from ._pool import Pool
from ._service import Service
from .replies import *

# Without `format`, which would hide the built-in one from who takes all names.
__all__ = ["Pending", "Log", "Area", "Cursor", "RestartCursor", "connect", "attach", "Service", "Pool"]
__all__ += replies.__all__
__version__ = "0.1.0"
