#!/usr/bin/env python3
"""The medians of several runs of tools/bench/run.sh: medians.py RUN.. prints each ratio's median, with the least and the most."""
import sys

runs = []
for path in sys.argv[1:]:
    with open(path) as file:
        rows = [[cell.strip() for cell in line.split("|")[1:-1]] for line in file if line.startswith("|")]
    names, cells = rows[0], rows[2:]
    # A ratio's column is named for the call of the columns before it, and for the reference C where that is timed.
    ratios, call = {}, ""
    for place, name in enumerate(names):
        if ":" in name:
            call = name.split(":")[0] + (", reference" if name.endswith(" reference") else "")
        if name == "ratio":
            ratios[call] = place
    runs.append({(row[0], row[1]): {call: float(row[place]) for call, place in ratios.items()} for row in cells})

calls = list(next(iter(runs[0].values())))
print("| signal | channels | " + " | ".join(calls) + " |")
print("|" + "---|" * (len(calls) + 2))
for key in runs[0]:
    line = f"| {key[0]} | {key[1]} |"
    for call in calls:
        seen = sorted(run[key][call] for run in runs)
        line += f" {seen[len(seen) // 2]:.2f} ({seen[0]:.2f} to {seen[-1]:.2f}) |"
    print(line)
