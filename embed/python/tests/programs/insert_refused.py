from yuglemit.build import Array, Int, Out, check, control, insert, out


@control
def main(container: Out[Array[Int]], count: Out[Int]) -> None:
    refused = 0
    for number in range(3):
        if check(insert(out.container, number % 2, number + 1)):
            pass
        else:
            refused += 1
    out.count = refused
