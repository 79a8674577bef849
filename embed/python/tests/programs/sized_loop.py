from yuglemit.build import Array, Int, Out, check, control, out


@control
def main(container: Array[Int], result: Out[Int]) -> None:
    total = 0
    for subscript in container:
        if check(more := total + subscript):
            total = more
    out.result = total
