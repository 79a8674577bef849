from yuglemit.build import Int, Map, Out, control, each, out


@control
def rows(a: Map[Int, Int], b: Map[Int, Int], before: Map[Int, Int], number: Int, distance: Out[Int]) -> None:
    if number == len(a):
        out.distance = before[len(b)]
        return
    row = Map[Int, Int]()
    left = number + 1
    row[0] = left
    for place, code in each(b, 30):
        change = 1
        if code == a[number]:
            change = 0
        left = min(min(left, before[place + 1]) + 1, before[place] + change)
        row[place + 1] = left
    rows(a, b, row, number + 1, out.distance)


@control
def main(a: Map[Int, Int], b: Map[Int, Int], distance: Out[Int]) -> None:
    row = Map[Int, Int]()
    for place in range(31):
        if place > len(b):
            break
        row[place] = place
    rows(a, b, row, 0, out.distance)
