"""Headings of Markdown pages, and their anchors in links."""
import re


def headings(text):
    """Returns the headings of a page with their levels. Lines of code are no headings."""
    prose = re.sub(r"^```.*?^```$", "", text, flags=re.S | re.M)
    return [(len(marks), heading) for marks, heading in re.findall(r"^(#+) (.*)", prose, re.M)]


def slug(heading):
    """Returns the anchor of a heading, as GitHub makes it."""
    return re.sub(r"[^\w\- ]", "", heading.strip().lower()).replace(" ", "-")
