"""Why a command can't do what it was asked, and with what it ends then: 1 if something is refused, 2 if the command is wrong, 3 without a server."""


class Fault(Exception):
    """Why nothing, or nothing more, is done."""

    status = 1


class Wrong(Fault):
    """Why a command can't be understood."""

    status = 2


class NoAnswer(Fault):
    """Why a request has no reply."""

    status = 3


class Stopped(Fault):
    """Why no further request makes sense."""


class Refused(Fault):
    """Why nothing is saved, put, sent or written."""
