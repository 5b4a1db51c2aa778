"""Prints what `calendar` must print: a dictionary has the name of each day."""
import sys
from datetime import date, timedelta

name_of, years = {}, []


def spans(days):
    """The greatest spans of days with one name: [first day, last day, name]."""
    found = []
    for day in days:
        if found and found[-1][1] == day - timedelta(1) and name_of.get(day) == found[-1][2]:
            found[-1][1] = day
        else:
            found.append([day, day, name_of.get(day)])
    return found


def show(span, lead=""):
    count = (span[1] - span[0]).days + 1
    print(f"{lead}{span[0]} {span[1]} {span[2] or 'free'}, {count} days")


for line in sys.stdin:
    line = line.split("#")[0].strip()
    if line.startswith("? "):
        years.append(int(line[2:]))
    elif line:
        start, end, name = line.split(" ", 2)
        start, end = date.fromisoformat(start), date.fromisoformat(end)
        for span in spans(sorted(name_of)):
            if span[0] <= end and start <= span[1]:
                show(span, f"{name} meets ")
        for number in range(start.toordinal(), end.toordinal() + 1):
            name_of.setdefault(date.fromordinal(number), name)

for span in spans(sorted(name_of)):
    show(span)
for year in years:
    days = range(date(year, 1, 1).toordinal(), date(year, 12, 31).toordinal() + 1)
    for span in spans(map(date.fromordinal, days)):
        if span[2] is None:
            show(span)
