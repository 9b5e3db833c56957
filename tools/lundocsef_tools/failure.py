"""The one exception that the tools raise for a reason that the user can mend."""


class Failure(Exception):
    """Its text is shown to the user, without a traceback, and the command ends with status 1."""
