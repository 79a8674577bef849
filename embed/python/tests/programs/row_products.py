from yuglemit.build import Int, Map, Out, check, control, leaf, out


@leaf
def multiply(matrix: Map[Int, Int], vector: Map[Int, Int], product: Out[Map[Int, Int]], row: Int, columns: Int, at: Int) -> None:
    total = 0
    for column in range(1000):
        if column == columns:
            break
        if check(more := total + matrix[at + column] * vector[column]):
            total = more
        else:
            return
    out.product[row] = total


@control
def main(matrix: Map[Int, Int], vector: Map[Int, Int], product: Out[Map[Int, Int]]) -> None:
    seen = 0
    for row in range(1000):
        if seen >= len(matrix) or len(vector) == 0:
            break
        multiply(matrix, vector, out.product, row, len(vector), seen)
        seen = seen + len(vector)
