"""What the parts of the check share: the checks of a part, which the harness counts."""

import harness


class Tally:
    """The checks of a part."""

    def __init__(self, part: str) -> None:
        self.part = part

    def tell(self, name: str, is_so: object, why: str = "") -> None:
        """A name, whether it is so, and why not."""
        harness.tell(f"{self.part}: {name}", is_so, why)

    def raises(self, name: str, kind: type[BaseException], call, *words: object, **named: object):
        """A name, and whether a call raises exactly this kind of exception, which is answered."""
        found = None
        try:
            call(*words, **named)
        except Exception as error:
            found = error
        harness.tell(f"{self.part}: {name}", type(found) is kind, repr(found))
        return found
