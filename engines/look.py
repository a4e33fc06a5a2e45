#!/usr/bin/env python3
"""Rows of runs with pandas: look.py ROWS.csv FIGURE PICTURE.png

Means with their 95 percent intervals at each point, the difference of the last point to the first by pairs of runs, and a picture. Rows are
what `planner runs` or the shares of `planner shard` write, one file behind the other. Needs python3-pandas, python3-matplotlib and
python3-scipy."""
import sys

import matplotlib

matplotlib.use("Agg")
import matplotlib.pyplot as plt
import pandas as pd
from scipy import stats

rows = pd.read_csv(sys.argv[1], dtype=str)
rows = rows[rows["model"] != "model"].drop_duplicates()  # headers of later files, and rows that came twice
figure = sys.argv[2]
done = rows[rows["end"] == "Done"].copy()
done[figure] = pd.to_numeric(done[figure])
print(f"{len(done)} of {len(rows)} runs came to their count")

groups = done.groupby("point", sort=False)[figure]
table = pd.DataFrame({"runs": groups.size(), "mean": groups.mean(), "median": groups.median()})
table["half"] = groups.sem() * stats.t.ppf(0.975, table["runs"] - 1)
print(table.round(3).to_string())

# Run r has the same seeds at each point, so differences are taken run by run.
wide = done.pivot(index="run", columns="point", values=figure)
change = (wide[table.index[-1]] - wide[table.index[0]]).dropna()
print(f"{table.index[-1]} less {table.index[0]}: {change.mean():.3f} +- {stats.t.ppf(0.975, len(change) - 1) * change.sem():.3f}")

axes = table["mean"].plot(yerr=table["half"], fmt="o", capsize=4, xlim=(-0.5, len(table) - 0.5), ylim=(0, None))
axes.set(ylabel=figure, xlabel="")
plt.savefig(sys.argv[3])
