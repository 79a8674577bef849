from yuglemit.build import Array, Int, Out, check, control, each, insert, leaf, out

PLACES = 1024


@leaf
def square(number: Int, place: Int, squares: Out[Array[Int]]) -> None:
    if check(key := number * number * PLACES + place, insert(out.squares, key, place)):
        pass


@leaf(otherwise=(-1, -1))
def add_up(squares: Array[Int], size: Int) -> tuple[Int, Int]:
    total = 0
    for key in squares:
        total = total + key // PLACES
    return total, size - len(squares)


@control
def main(numbers: Array[Int], total: Out[Int], left_out: Out[Int]) -> None:
    squares = Array[Int]()
    place = 0
    for _, number in each(numbers, 1000):
        square(number, place, squares)
        place = place + 1
    out.total, out.left_out = add_up(squares, len(numbers))
