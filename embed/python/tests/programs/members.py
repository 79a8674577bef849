from yuglemit.build import Array, Int, Out, control, out


@control
def main(container: Out[Array[Int]]) -> None:
    out.container[9] = 100
    out.container[-9] = 200
