"""Draws by matplotlib for bench/plots and bench/dashboard. The same figures give the same bytes."""
import os
import sys

NEEDS = "%s: this needs matplotlib: apt-get install python3-matplotlib, and call /usr/bin/python3 %s"
GREY = "#666666"
# The colours of lines that belong to no program.
COLOURS = ("#1f77b4 #ff7f0e #2ca02c #d62728 #9467bd #8c564b #e377c2 #17becf #bcbd22 #7f7f7f"
           " #0b3d66 #a34f00 #145214 #7a1212 #4b2a75 #4a2b25 #9c2d7c #0a6b76 #6b6c0e #3f3f3f").split()


def pyplot(name):
    """Returns matplotlib's pyplot, set up for a script of bench/. Ends the script if matplotlib is not
    installed."""
    try:
        import matplotlib
    except ImportError:
        sys.exit(NEEDS % (name, "bench/" + name))
    matplotlib.use("svg")
    matplotlib.rcParams.update({
                                   # The ids in the SVG are made from this text, and not at random.
                                   "svg.hashsalt": name,
                                   # Text stays text, so that a reader can search it.
                                   "svg.fonttype": "none",
                                   "font.sans-serif": ["DejaVu Sans", "Verdana", "sans-serif"],
                                   "font.size": 9,
                                   "axes.titlesize": 9,
                                   "axes.titlelocation": "left",
                                   "axes.spines.top": False,
                                   "axes.spines.right": False,
                                   "axes.edgecolor": GREY,
                                   "xtick.color": GREY,
                                   "ytick.color": GREY,
                                   "xtick.labelcolor": "black",
                                   "ytick.labelcolor": "black",
                                   "axes.axisbelow": True,
                                   "grid.color": "#dddddd",
                                   "legend.frameon": False,
                               })
    from matplotlib import pyplot

    return pyplot


def save(figure, path, **metadata):
    """Writes a figure as SVG, without a date."""
    os.makedirs(os.path.dirname(path), exist_ok=True)
    figure.savefig(path, metadata={"Date": None, **metadata})
