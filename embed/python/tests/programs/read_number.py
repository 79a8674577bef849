from yuglemit.build import Out, Text, check, control, out


@control
def main(word: Text, to: Out[Text]) -> None:
    if check(more := int(word) + 1):
        out.to = str(more)
    else:
        out.to = "none"
