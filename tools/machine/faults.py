"""Why a test is not run on this machine."""


class NotRun(Exception):
    """A test cannot be run here, and why."""
