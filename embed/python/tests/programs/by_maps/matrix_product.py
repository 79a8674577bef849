from yuglemit.build import Int, Map, Out, control, leaf, out

SIZE = 4


@leaf
def multiply(a: Map[Int, Int], b: Map[Int, Int], row: Int, product: Out[Map[Int, Int]]) -> None:
    for column in range(SIZE):
        total = 0
        for at in range(SIZE):
            total = total + a[SIZE * row + at] * b[SIZE * at + column]
        out.product[SIZE * row + column] = total


@control
def main(a: Map[Int, Int], b: Map[Int, Int], product: Out[Map[Int, Int]]) -> None:
    for row in range(SIZE):
        multiply(a, b, row, out.product)
