from yuglemit.build import Int, Out, check, control, out

LEAST = -(2**63)


@control
def main(result: Out[Int]) -> None:
    least = LEAST
    if check(least // -1):
        out.result = 9
    else:
        out.result = 5
