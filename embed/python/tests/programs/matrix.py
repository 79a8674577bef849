from yuglemit.build import Array, Int, Out, check, control, each, leaf, out


@leaf
def add(total: Int, member: Int) -> Int:
    if check(more := total + member):
        return more
    return total


@control
def fill_row(width: Int) -> Array[Int]:
    row = Array[Int]()
    for number in range(1, 11):
        if number > width:
            break
        row[number] = number
    return row


@control
def fold_row(row: Array[Int], before: Int) -> Int:
    total = before
    for _, member in each(row, 10):
        total = add(total, member)
    return total


@control
def fold_rows(matrix: Array[Array[Int]]) -> Int:
    total = 0
    for _, row in each(matrix, 20):
        total = fold_row(row, total)
    return total


@control
def main(widths: Array[Int], total: Out[Int]) -> None:
    matrix = Array[Array[Int]]()
    for subscript, width in each(widths, 20):
        matrix[subscript] = fill_row(width)
    out.total = fold_rows(matrix)
