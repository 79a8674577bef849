from yuglemit.build import Int, Map, Out, Sum, Text, control, each, out, split


@control
def main(lines: Map[Int, Text], counts: Out[Sum[Text]]) -> None:
    for _, line in each(lines):
        for word in split(line, " \n.,;:!?"):
            out.counts[word] += 1
