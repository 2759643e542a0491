"""How a run ends that comes to no report."""


class Refusal(Exception):
    """What was asked for can't be done, or what was found can't be trusted: a line says why, and the status is 2."""
