from yuglemit.build import Array, Int, Out, control, leaf, out


@leaf
def square(number: Int, into: Out[Array[Int]]) -> None:
    out.into[number] = number * number


@control
def main(squares: Out[Array[Int]]) -> None:
    for number in range(8):
        square(number, out.squares)
