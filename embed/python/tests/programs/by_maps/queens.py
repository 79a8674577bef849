from yuglemit.build import Int, Out, Sum, control, out


@control
def place(row: Int, board: Int, size: Int, found: Out[Sum[Int]]) -> None:
    if row == size:
        out.found[0] += 1
        return
    for column in range(8):
        if column == size:
            break
        rest = board
        free = 1
        for back in range(1, 8):
            if back > row:
                break
            if rest % 16 == column or abs(rest % 16 - column) == back:
                free = 0
            rest = rest // 16
        if free == 1:
            place(row + 1, board * 16 + column, size, out.found)


@control
def main(size: Int, found: Out[Sum[Int]]) -> None:
    place(0, 0, size, out.found)
