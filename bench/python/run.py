"""Measures the package of Python: beats a second by `Judge.step` and `Judge.steps`, and requests a second by `Model.serve`.

The beats are those of a capture of bench/check, of two masters and two ports, with links of both sides watched: 200,000 beats. Each
row has the most and the middle of all rounds, by processor time. It needs libtlx.so (tools/shared_library). `run ROUNDS` sets how many rounds there are.
"""

import sys
import tempfile
import time

import maker
import tlx
from captures import rows_of

BEATS = 200_000
SERVED = 50_000


def made_again(beats):
    """Each beat as a caller makes it for one call."""
    for beat in beats:
        yield tlx.Beat(beat.side, beat.number, beat.channel, beat.opcode, beat.size, beat.source, beat.address, beat.mask, beat.data,
                       beat.param, beat.denied, beat.corrupt, beat.known, beat.line, beat.time)


def step_all(judge, beats):
    step = judge.step
    for beat in beats:
        step(beat)


def signals_of(beats):
    """The signals of an edge for each beat, with valid at its link alone."""
    front = {f"{link}_{channel}_{name}": 0 for link in ("m0", "m1", "p0", "p1") for channel in "ad" for name in ("valid", "ready")}
    for beat in beats:
        link = f"{'mp'[beat.side]}{beat.number}_{'ad'[beat.channel]}"
        yield front | {f"{link}_valid": 1, f"{link}_ready": 1, **{f"{link}_{name}": getattr(beat, name) for name in tlx.Beat.__slots__}}


def ways(system, beats):
    """What is timed, by its name: how often it does so, and a call that makes what it needs and answers what is timed."""
    array, edges = tlx.Beats(beats), list(signals_of(beats[:SERVED]))
    request = tlx.Request.get(0x1000, 3)

    def stepping():
        judge = tlx.Judge(system)
        return lambda: step_all(judge, beats)

    def making():
        judge = tlx.Judge(system)
        return lambda: step_all(judge, made_again(beats))

    def arrays():
        judge = tlx.Judge(system)
        return lambda: judge.steps(array)

    def sampling():
        monitor = tlx.Monitor(tlx.Judge(system), {link: f"{link}_" for link in ("m0", "m1", "p0", "p1")})
        return lambda: [monitor.sample(signals) for signals in edges]

    def serving():
        model = tlx.Model(system)
        return lambda: [model.serve(0, request) for _ in range(SERVED)]

    return {"step, beats made before": (BEATS, stepping), "step, each beat made for it": (BEATS, making), "steps, an array": (BEATS, arrays),
            "sample, four links and one beat an edge": (SERVED, sampling), "serve, gets of 8 bytes": (SERVED, serving)}


def main():
    rounds = int(sys.argv[1]) if sys.argv[1:] else 9
    with tempfile.TemporaryDirectory() as folder:
        beats = rows_of(maker.make(folder, BEATS))
    system = tlx.System(maker.SYSTEM)
    timed = ways(system, beats)
    rates = {name: [] for name in timed}
    for _ in range(rounds):
        for name, (count, make) in timed.items():
            call = make()
            began = time.process_time()
            call()
            rates[name].append(count / (time.process_time() - began))
    for name, found in rates.items():
        print(f"{name}: {max(found):,.0f} a second at most, {sorted(found)[rounds // 2]:,.0f} in the middle")


if __name__ == "__main__":
    main()
