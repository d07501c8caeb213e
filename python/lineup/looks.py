"""The colours of pictures: of boxes and lines, and of what is marked in them."""
INK, LINE, BORDER, SOFT = "#1d2733", "#445566", "#2b4a6f", "#5a6877"
FILL = {"place": "#eef4fb", "transition": "#fdf0d8", "node": "#eef4fb"}
WAITS = "#e6f4df"  # a node that waits, and a source
FAULT, END, RUN, LESS, MORE = "fault", "end", "run", "less", "more"

# by rising weight: the line, and what fills a box
MARKS = {
    RUN: ("#0b62b8", "#dcebfb"),  # a run or a log passes here
    LESS: ("#a8480b", "#fdebd9"),  # of this sheet, and not of the other
    MORE: ("#15703a", "#e0f5e5"),  # of another sheet alone
    END: ("#8a6100", "#ffe08a"),  # where a run stands at its end
    FAULT: ("#b00020", "#fbe3e6"),
}
CHOICES = ["#7b3fa0", "#00707a", "#9a5b00", "#b0246a", "#3f6f1e", "#3550b5"]  # of choice sets, by turns


def strongest(marks):
    """Of several marks the one that is shown."""
    order = list(MARKS)
    return max((mark for mark in marks if mark), key=order.index, default="")


def line(mark):
    return MARKS[mark][0] if mark else LINE


def border(box):
    if box.mark:
        return MARKS[box.mark][0]
    return choice(box.choice) if box.choice else BORDER


def fill(box):
    if box.mark:
        return MARKS[box.mark][1]
    return WAITS if box.waits else FILL[box.kind]


def choice(letter):
    return CHOICES[(ord(letter) - ord("A")) % len(CHOICES)]
