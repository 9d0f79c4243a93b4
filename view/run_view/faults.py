"""What is said to the user where something can't be read or written."""


class ViewFault(Exception):
    """An input that can't be read, or an output that can't be written; its text is one line for the user."""


def reason(fault: OSError) -> str:
    """The system's words for a failure, in one line."""
    return fault.strerror or " ".join(str(fault).split())
