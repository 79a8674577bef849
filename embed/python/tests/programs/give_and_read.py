from yuglemit.build import Array, Int, Out, control, leaf, out


@leaf
def count(container: Array[Int]) -> Int:
    return len(container)


@control
def main(given: Out[Array[Int]], size: Out[Int]) -> None:
    own = Array[Int]()
    for number in range(1, 4):
        out.given[number] = number
        own[number] = number
    out.size = count(own)
