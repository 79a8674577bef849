from yuglemit.build import Int, Map, Out, Text, byte_length, check, control, out, span

BLANKS = " \n"
DIGITS = "0123456789"
LETTERS = "abcdefghijklmnopqrstuvwxyzABCDEFGHIJKLMNOPQRSTUVWXYZ_"


@control
def main(expression: Text, tokens: Out[Map[Int, Text]]) -> None:
    start, count = span(expression, BLANKS), 0
    while start < byte_length(expression):
        end = span(expression, DIGITS, start)
        if end == start:
            end = span(expression, LETTERS, start)
            if end > start:
                end = span(expression, LETTERS + DIGITS, end)
            else:
                end = start + 1
        if check(token := expression[start:end]):
            out.tokens[count] = token
            count += 1
        start = span(expression, BLANKS, end)
