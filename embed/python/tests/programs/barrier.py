from yuglemit.build import Array, Int, Out, check, control, insert, leaf, out


@leaf
def work(number: Int, barrier: Out[Array[Int]]) -> None:
    if check(insert(out.barrier, number, number)):
        pass


@leaf
def count(arrived: Array[Int]) -> Int:
    return len(arrived)


@control
def main(came: Out[Int]) -> None:
    barrier = Array[Int]()
    for number in range(8):
        work(number, barrier)
    out.came = count(barrier)
