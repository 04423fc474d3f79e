"""tlx in Python: the model of a TileLink crossbar, and the judge of what crosses the links of any crossbar.

A system is what a system file describes, with its images; any number of models and judges is made of one:

    system = tlx.System.read("system.toml")

The model answers each request at once, as a proved crossbar must:

    model = tlx.Model(system)
    answer = model.serve(0, tlx.Request.get(0x1000, size=2))

The judge takes the beats of a crossbar, and raises Unlawful at the first that is wrong:

    judge = tlx.Judge(system)
    judge.step(tlx.Beat.ask("m0", tlx.Ask.GET, size=2, source=1, address=0x1000, mask=0x0F))

Monitor makes beats of a design's signals. All of it is the library of C behind `include/tlx.h`: this package has no rule of its own.
`docs/guide/embedding.md` has a first use. A value of a wrong type is a TypeError, one that is too large an OverflowError, and one without a
meaning a ValueError. Unlawful and Incomplete are verdicts.
"""

from .faults import Fault, Incomplete, InvalidSystem, Refused, Unlawful
from .judge import LINKS, ORDERS, Judge
from .messages import Answer, Ask, Beat, Beats, Channel, Reply, Request, Side, link_of
from .model import Model
from .monitor import Monitor
from .system import System

__all__ = ["LINKS", "ORDERS", "Answer", "Ask", "Beat", "Beats", "Channel", "Fault", "Incomplete", "InvalidSystem", "Judge", "Model", "Monitor",
           "Refused", "Reply", "Request", "Side", "System", "Unlawful", "link_of"]
