from yuglemit.build import Int, Map, Out, control, each, leaf, out

LEAST = -(2**63)


@leaf(otherwise=0)
def greatest(numbers: Map[Int, Int]) -> Int:
    result = LEAST
    for _, number in each(numbers, 1000):
        result = max(result, number)
    return result


@control
def main(numbers: Map[Int, Int], most: Out[Int]) -> None:
    out.most = greatest(numbers)
