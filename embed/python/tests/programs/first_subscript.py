from yuglemit.build import Int, Out, Table, Text, check, control, nth, out


@control
def main(container: Table[Int], first: Out[Text]) -> None:
    if check(found := nth(container, 0)):
        out.first = found
    else:
        out.first = ""
