"""What belongs to one process, since it has a connection there."""

from typing import NoReturn, SupportsIndex


class Bound:
    """It can't be pickled or copied."""

    def __reduce_ex__(self, protocol: SupportsIndex) -> NoReturn:
        raise TypeError(
            "a %s can't be pickled or copied, since its connection belongs to this process: pass the address and the names, and make one of its own there"
            % type(self).__name__
        )
