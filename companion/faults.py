"""What ends a command before its time."""


class Refusal(Exception):
    """Something is wrong with an input. Its text is the one line that is told; the status is 1."""


class UsageFault(Exception):
    """The words give no order. Its text is the one line that is told; the status is 2."""
