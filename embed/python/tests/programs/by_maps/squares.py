from yuglemit.build import Int, Map, Out, Sum, control, each, leaf, out


@leaf
def square(number: Int, place: Int, squares: Out[Map[Int, Int]], total: Out[Sum[Int]]) -> None:
    out.squares[place] = number * number
    out.total[0] += number * number


@control
def main(numbers: Map[Int, Int], squares: Out[Map[Int, Int]], total: Out[Sum[Int]]) -> None:
    for place, number in each(numbers, 1000):
        square(number, place, out.squares, out.total)
