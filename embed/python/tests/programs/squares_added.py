from yuglemit.build import Int, Out, Sum, control, leaf, out


@leaf
def square(into: Out[Sum[Int]], number: Int) -> None:
    out.into[0] += number * number


@leaf(otherwise=0)
def read(squares: Sum[Int]) -> Int:
    return squares[0]


@control
def main(total: Out[Int]) -> None:
    squares = Sum[Int]()
    for number in range(500):
        square(squares, number)
    out.total = read(squares)
