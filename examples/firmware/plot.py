#!/usr/bin/env python3
"""Plots charge, voltage, charger's current, alarms and charger messages of the firmware's days: plot.py TABLE.csv PLOT.svg

The time axis is cut where the table has no rows for over an hour: the pack was in store. A line marks where the pack
learned its full capacity, another where the counter wrapped."""

import csv
import sys

WIDTH, LEFT, RIGHT, CUT, HEIGHT = 1000, 178, 22, 54, 818
TOP, BOTTOM = 64, 750  # of all panels
PANELS = {  # top and height
    "charge": (64, 150),
    "voltage": (252, 150),
    "charger's current": (440, 90),
    "alarms": (568, 100),
    "charger": (706, 44),
}
ALARM_ROWS = [
    (14, "TERMINATE_CHARGE"),
    (12, "OVER_TEMP"),
    (11, "TERMINATE_DISCHARGE"),
    (9, "REMAINING_CAPACITY"),
    (8, "REMAINING_TIME"),
]
CHARGER_ROWS = [(0, "current and voltage"), (1, "alarm: stop")]
INK, GRID, FAINT = "#333333", "#dddddd", "#888888"
CHARGE, VOLTAGE, CURRENT, ALARM, CHARGER, STORE = "#1b7837", "#2166ac", "#8c510a", "#b2182b", "#7b3294", "#eeeeee"
MODES = [  # bits of BatteryMode and of ChargerStatus; how far above the panels the label stands
    ("mode", 0x2000, "#fde0b5", "hold: no alarms", 26),
    ("mode", 0x4000, "#e7d4e8", "no charger words", 10),
    ("status", 0x0001, "#d1e5f0", "charger inhibited", 10),
]
HOUR, DAY, MINUTE = 3600, 86400, 60


def text(x, y, words, anchor="start", size=12, colour=INK, turn=None):
    turned = "" if turn is None else f' transform="rotate({turn} {x:.1f} {y:.1f})"'
    return f'<text x="{x:.1f}" y="{y:.1f}" font-size="{size}" text-anchor="{anchor}" fill="{colour}"{turned}>{words}</text>'


def line(x1, y1, x2, y2, colour=GRID, dashes=""):
    dashed = f' stroke-dasharray="{dashes}"' if dashes else ""
    return f'<line x1="{x1:.1f}" y1="{y1:.1f}" x2="{x2:.1f}" y2="{y2:.1f}" stroke="{colour}"{dashed}/>'


def box(x1, y1, x2, y2, colour):
    return f'<rect x="{x1:.1f}" y="{y1:.1f}" width="{max(x2 - x1, 1.0):.1f}" height="{y2 - y1:.1f}" fill="{colour}"/>'


class Axis:
    """Where a second stands: the stretches between cuts share the width by their length."""

    def __init__(self, rows):
        self.stretches = [[rows[0]]]
        for before, row in zip(rows, rows[1:]):
            if row["second"] - before["second"] > HOUR:
                self.stretches.append([])
            self.stretches[-1].append(row)
        shown = sum(s[-1]["second"] - s[0]["second"] for s in self.stretches)
        self.scale = (WIDTH - LEFT - RIGHT - CUT * (len(self.stretches) - 1)) / shown
        self.begins = [LEFT]
        for s in self.stretches[:-1]:
            self.begins.append(self.begins[-1] + (s[-1]["second"] - s[0]["second"]) * self.scale + CUT)

    def at(self, stretch, second):
        return self.begins[stretch] + (second - self.stretches[stretch][0]["second"]) * self.scale

    def ends(self):
        """Left and right edge of each stretch."""
        return [(x, self.at(i, s[-1]["second"])) for i, (x, s) in enumerate(zip(self.begins, self.stretches))]


def hours(axis):
    """A grid line every two hours over all panels, the hour below; the day where one begins, and the axis's title."""
    parts = []
    for i, rows in enumerate(axis.stretches):
        first, last = rows[0]["second"], rows[-1]["second"]
        for second in range(-(-first // (2 * HOUR)) * 2 * HOUR, last + 1, 2 * HOUR):
            x = axis.at(i, second)
            parts += [line(x, TOP, x, BOTTOM), text(x, BOTTOM + 17, f"{second // HOUR % 24:02d}", "middle")]
        begins = [first] + list(range(-(-first // DAY) * DAY, last, DAY))
        for second in begins:
            x = axis.at(i, second)
            parts += [line(x, BOTTOM + 22, x, BOTTOM + 36, FAINT), text(x + 5, BOTTOM + 34, f"day {second // DAY + 1}")]
    parts.append(text((LEFT + WIDTH - RIGHT) / 2, HEIGHT - 10, "time of day, hours", "middle", 13))
    return parts


def curve(axis, name, title, colour, low, high, step):
    """One panel with one curve and its scale."""
    top, height = PANELS[title.split(",")[0]]

    def up(value):
        return top + height - height * (value - low) / (high - low)

    parts = [text(LEFT, top - 8, title, size=13)]
    for value in range(low, high + 1, step):
        parts += [line(left, up(value), right, up(value)) for left, right in axis.ends()]
        parts.append(text(LEFT - 8, up(value) + 4, f"{value:,}", "end"))
    for i, rows in enumerate(axis.stretches):
        points = " ".join(f"{axis.at(i, r['second']):.1f},{up(r[name]):.1f}" for r in rows)
        parts.append(f'<polyline points="{points}" fill="none" stroke="{colour}" stroke-width="1.6"/>')
    return parts


def runs(rows, test):
    """The times in which a test holds, minute by minute: from, to."""
    begin = None
    for row in rows + [None]:
        on = row is not None and test(row)
        if on and begin is None:
            begin = max(row["second"] - MINUTE, rows[0]["second"])
        if not on and begin is not None:
            yield begin, (row["second"] - MINUTE if row else rows[-1]["second"])
            begin = None


def bars(axis, panel, name, title, names, colour):
    """A row for each bit, dark in the minutes in which it was sent."""
    top, height = PANELS[panel]
    each = height / len(names)
    parts = [text(LEFT, top - 8, title, size=13)]
    for place, (bit, label) in enumerate(names):
        y = top + each * place
        parts += [line(left, y + each, right, y + each) for left, right in axis.ends()]
        parts.append(text(LEFT - 8, y + each / 2 + 4, label, "end", 11))
        for i, rows in enumerate(axis.stretches):
            for begin, end in runs(rows, lambda row, bit=bit: row[name] >> bit & 1):
                parts.append(box(axis.at(i, begin), y + 4, axis.at(i, end), y + each - 4, colour))
    return parts


def modes(axis):
    """A band where the host asked for no alarms, or for no words to the charger, or inhibited it."""
    parts = []
    for name, bit, colour, label, above in MODES:
        for i, rows in enumerate(axis.stretches):
            for begin, end in runs(rows, lambda row, name=name, bit=bit: row[name] & bit):
                x, to = axis.at(i, begin + MINUTE), min(axis.at(i, end + MINUTE), axis.ends()[i][1])
                parts += [box(x, TOP, to, BOTTOM, colour), text(x, TOP - above, label)]
    return parts


def wraps(axis):
    """A line where the counter began again while the board ran."""
    parts = []
    for i, rows in enumerate(axis.stretches):
        for before, row in zip(rows, rows[1:]):
            if row["counter"] < before["counter"]:
                x = axis.at(i, row["second"] - row["counter"] // 1000)
                parts += [line(x, TOP - 22, x, BOTTOM, INK, "5 4"), text(x - 5, TOP - 26, "counter wraps", "end")]
    return parts


def learned(axis):
    """A line where FullChargeCapacity became another, with what it became."""
    parts = []
    for i, rows in enumerate(axis.stretches):
        for before, row in zip(rows, rows[1:]):
            if row["full"] != before["full"]:
                x, words = axis.at(i, row["second"]), f"full capacity learned: {row['full']:,} mAh"
                parts += [line(x, TOP - 22, x, BOTTOM, CHARGE, "5 4"), text(x, TOP - 26, words, "middle", 12, CHARGE)]
    return parts


def cuts(axis):
    """A grey band where the axis is cut, with the days that it leaves out."""
    parts = []
    for i, (before, after) in enumerate(zip(axis.stretches, axis.stretches[1:])):
        left, right = axis.at(i, before[-1]["second"]), axis.begins[i + 1]
        days = (after[0]["second"] - before[-1]["second"]) // DAY
        parts.append(box(left, TOP, right, BOTTOM, STORE))
        parts += [line(x, TOP, x, BOTTOM, FAINT, "2 3") for x in (left, right)]
        middle = (left + right) / 2
        parts.append(text(middle - 4, (TOP + BOTTOM) / 2, f"{days} days in store", "middle", 13, INK, -90))
        parts.append(text(middle + 14, (TOP + BOTTOM) / 2, "the counter starts from 0", "middle", 12, INK, -90))
    return parts


def main():
    if len(sys.argv) != 3:
        sys.exit("usage: plot.py TABLE.csv PLOT.svg")
    with open(sys.argv[1], newline="") as table:
        rows = [{name: int(value) for name, value in row.items()} for row in csv.DictReader(table)]
    axis = Axis(rows)
    volts = [row["millivolts"] for row in rows]
    low, high = min(volts) // 1000 * 1000, -(-max(volts) // 1000) * 1000
    parts = [
        f'<svg xmlns="http://www.w3.org/2000/svg" viewBox="0 0 {WIDTH} {HEIGHT}" font-family="sans-serif">',
        f'<rect width="{WIDTH}" height="{HEIGHT}" fill="white"/>',
        text(LEFT, 20, "A day of spraying and a night on the charger, sixty days in store, and both again", size=15),
    ]
    parts += modes(axis) + hours(axis)
    parts += curve(axis, "percent", "charge, percent", CHARGE, 0, 100, 25)
    parts += curve(axis, "millivolts", "voltage, mV", VOLTAGE, low, high, 1000)
    parts += curve(axis, "charging", "charger's current, mA, each minute's mean", CURRENT, 0, 1500, 500)
    parts += bars(axis, "alarms", "alarms", "alarms sent to the host", ALARM_ROWS, ALARM)
    parts += bars(axis, "charger", "charger", "taken by the charger", CHARGER_ROWS, CHARGER)
    parts += wraps(axis) + learned(axis) + cuts(axis) + ["</svg>"]
    with open(sys.argv[2], "w") as plot:
        plot.write("\n".join(parts) + "\n")


main()
