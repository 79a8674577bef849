from yuglemit.build import Array, Int, Out, check, control, leaf, nth, out


@leaf
def read(squares: Array[Int]) -> tuple[Int, Int]:
    greatest = 0
    if check(found := nth(squares, len(squares) - 1)):
        greatest = found
    return len(squares), greatest


@control
def main(size: Out[Int], greatest: Out[Int]) -> None:
    squares = Array[Int]()
    for number in range(11, 14):
        squares[number] = number * number
    out.size, out.greatest = read(squares)
