from yuglemit.build import Int, Map, Out, Sum, Text, control, each, leaf, out


@leaf
def count(words: Map[Int, Text], counts: Out[Sum[Text]]) -> None:
    for _, word in each(words, 1000):
        out.counts[word] += 1


@control
def main(words: Map[Int, Text], counts: Out[Sum[Text]]) -> None:
    count(words, out.counts)
