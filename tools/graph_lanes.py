"""Places the members of a history in columns, so that each has one row and lines lead from it to its parents."""
from typing import NamedTuple


class Row(NamedTuple):
    """The column of a member, the columns that are in use, and the row as text."""
    column: int
    width: int
    text: str


def rows_of(members):
    """A row for each member, which is an id with those of its parents; children stand before parents."""
    lanes, rows = [], []
    for id, parents in members:
        ending = [place for place, awaited in enumerate(lanes) if awaited == id]
        column = ending[0] if ending else free_lane(lanes)
        before = list(lanes)
        for place in ending:
            lanes[place] = None
        starting = start_lanes(lanes, column, parents)
        width = max(len(lanes), len(before))
        rows.append(Row(column, width, text_of_row(before, lanes, column, ending, starting)))
        while lanes and lanes[-1] is None:
            lanes.pop()
    return rows


def free_lane(lanes, besides=None):
    for place, awaited in enumerate(lanes):
        if awaited is None and place != besides:
            return place
    lanes.append(None)
    return len(lanes) - 1


def start_lanes(lanes, column, parents):
    """The first parent that none awaits yet goes on in the member's column, others in columns of their own; gives those to which a line leads."""
    reached, goes_on = [], False
    for parent in parents:
        if parent in lanes:
            reached.append(lanes.index(parent))
        elif not goes_on:
            lanes[column], goes_on = parent, True
        else:
            place = free_lane(lanes, column)
            lanes[place] = parent
            reached.append(place)
    return reached


def text_of_row(before, after, column, ending, starting):
    """`*` is the member, `|` a line that passes, `'` one that ends here, `.` one that begins here, `+` one that is joined."""
    cells = []
    for place in range(max(len(before), len(after))):
        was, stays = place < len(before) and before[place] is not None, place < len(after) and after[place] is not None
        if place == column:
            cells.append('*')
        elif place in starting:
            cells.append('+' if was else '.')
        elif place in ending:
            cells.append("'")
        else:
            cells.append('|' if stays else ' ')
    ends = [column, *starting, *ending]
    low, high = min(ends), max(ends)
    text = ''
    for place, cell in enumerate(cells):
        inner = low < place < high and cell == ' '
        text += ('-' if inner else cell) + ('-' if low <= place < high else ' ')
    return text.rstrip()
