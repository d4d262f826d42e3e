"""Hunts for what is wrong with objects that are wrong on purpose.

`python3 -m hunted SEED` tells what is found of each. `python3 -m hunted figures HUNTS RUNS` prints
how many hunts of two seconds find it, how long they take and how small it becomes, and so many runs
of each right form.
"""

import statistics
import sys
import time

from selfcheck.hunts import Settings, hunt, replay

from . import CASES, RIGHT


def _settings(case, **more):
    return Settings(case.kind, **case.settings, **more)


def _comes_again(settings, finding, make):
    if not finding.repeats:
        return False
    return replay(settings, finding.again, make).is_same(finding.small)


def tell(seed):
    is_well = True
    for case in CASES:
        settings = _settings(case, seed=seed, runs=100_000)
        hunted = hunt(settings, case.wrong)
        finding = hunted.finding
        is_well &= bool(finding) and finding.found in case.wanted
        is_well &= bool(finding) and _comes_again(settings, finding, case.wrong)
        print(f"== {case.name}\n\n{hunted}")
    return is_well


def _measure_wrong(case, hunts):
    found, times, again = [], [], 0
    for seed in range(hunts):
        settings, began = _settings(case, seed=seed, seconds=2), time.monotonic()
        hunted = hunt(settings, case.wrong)
        finding = hunted.finding
        if finding is None or finding.found not in case.wanted:
            found_it = finding and finding.found
            print(f"{case.name}: {found_it} in {hunted.runs} runs", file=sys.stderr)
            continue
        found.append((hunted.runs, finding.small.script.calls(), finding.small.switches))
        times.append(time.monotonic() - began)
        again += _comes_again(settings, finding, case.wrong)
    words = [case.name, len(found), again]
    if found:
        runs, calls, switches = (sorted(it) for it in zip(*found))
        words += [f"{statistics.mean(runs):.1f}", runs[-1]]
        words += [f"{1000 * statistics.mean(times):.0f}", f"{1000 * max(times):.0f}"]
        words += [statistics.median_high(calls), calls[-1]]
        words += [statistics.median_high(switches), switches[-1]]
    print(f"| {' | '.join(map(str, words))} |", flush=True)
    return again == hunts


def _measure_right(case, runs):
    began, used = time.monotonic(), time.process_time()
    hunted = hunt(_settings(case, seed=1, runs=runs), case.right)
    seconds, used = time.monotonic() - began, time.process_time() - used
    words = [case.name, hunted.runs, int(hunted.finding is not None)]
    words += [f"{hunted.runs / seconds:.0f}", f"{hunted.turns / seconds:.0f}"]
    words.append(f"{hunted.turns / used:.0f}")
    print(f"| {' | '.join(map(str, words))} |", flush=True)
    if hunted.finding:
        print(hunted, file=sys.stderr)
    return hunted.finding is None


def measure(hunts, runs):
    print(
        f"| Wrong object | {hunts} hunts: found | again | runs, mean | most | ms with making it "
        "small, mean | most | small: calls, median | most | switches, median | most |"
    )
    print("|---|---|---|---|---|---|---|---|---|---|---|")
    is_well = all([_measure_wrong(it, hunts) for it in CASES])
    print(
        "\n| Right object | runs | blamed | runs a second | steps a second | steps a second of "
        "processor time |\n|---|---|---|---|---|---|"
    )
    return is_well & all([_measure_right(it, runs) for it in CASES + RIGHT])


def main(words):
    if words[:1] == ["figures"] and len(words) == 3:
        return measure(int(words[1]), int(words[2]))
    if len(words) <= 1:
        return tell(int(words[0]) if words else 0)
    sys.exit("usage: python3 -m hunted [SEED] | python3 -m hunted figures HUNTS RUNS")


if __name__ == "__main__":
    sys.exit(0 if main(sys.argv[1:]) else 1)
