from yuglemit.build import Array, Int, Out, check, control, each, leaf, out


@leaf
def add(member: Int, total: Int) -> Int:
    if check(more := total + member):
        return more
    return total


@control
def main(members: Array[Int], total: Out[Int]) -> None:
    so_far = 0
    for _, member in each(members, 10):
        so_far = add(member, so_far)
    out.total = so_far
