"""What the client raises of its own."""


class Error(Exception):
    """What this module raises is one of these."""


class Refused(Error):
    """The store refused a line. `number` and `name` are those of the README's table of refusals. `cause` is what stands behind
    them, for a person, and empty where nothing does: of a `Busy` the number of the transaction."""

    def __init__(self, line: str) -> None:
        super().__init__(line)
        _, number, name, *cause = line.split(' ', 3)
        self.number = int(number)
        self.name = name.rstrip(':')
        self.cause = ''.join(cause)


class Busy(Refused):
    """Another transaction is in the way, or too many are live: it may be tried again."""


class Lost(Refused):
    """Keeping has failed, as `cause` says where the server does: nobody can tell whether what was committed is kept. Open the store
    again, and look."""


class Misunderstood(Error):
    """The server did not understand the line, or the line was too long. Nothing was done. `reason` is `LineTooLong`, or `NotUnderstood`,
    behind which may stand, for a person, at which word and why: `NotUnderstood: bunp: no call of a collection`."""

    def __init__(self, reason: str, line: str = '') -> None:
        super().__init__(reason, line)
        self.reason, self.line = reason, line

    def __str__(self) -> str:
        return '%s, in the line %r' % (self.reason, self.line if len(self.line) <= 300 else self.line[:300] + '..')


class Idle(Error):
    """This client said nothing for so long that its transaction was taken back. The line was not carried out."""


class Gone(Error):
    """The server is not there, or went away, or the client is out of step with it. What was asked for last may have been carried
    out or not, and what was committed and not told kept may be kept or not. `__cause__` is what the system said, if it did."""


class TimedOut(Gone):
    """The answer did not come in time. The client was closed, so that nobody takes it for the answer of another line."""


class NotServed(TimedOut):
    """No client was free in time, or the server did not come to one at its door: all its clients are taken, or it could not open
    the FIFOs. In that case its standard error says why. Nothing was asked for."""


class Closed(Error):
    """The store was closed, in this program or by a fork. Nothing was asked for, or what was is not known to be carried out."""
