from yuglemit.build import Int, Map, Out, control, each, leaf, out


@leaf
def add_up(numbers: Map[Int, Int], sums: Out[Map[Int, Int]]) -> None:
    total = 0
    for place, number in each(numbers, 1000):
        total = total + number
        out.sums[place] = total


@control
def main(numbers: Map[Int, Int], sums: Out[Map[Int, Int]]) -> None:
    add_up(numbers, out.sums)
