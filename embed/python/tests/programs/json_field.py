from yuglemit.build import Out, Text, byte_length, check, control, find, out, span, until


@control
def main(json: Text, field: Text, value: Out[Text]) -> None:
    found = ""
    pattern = '"' + field + '":'
    if check(place := find(json, pattern)):
        at = span(json, " \n", place + byte_length(pattern))
        if json[at:].startswith('"'):
            at += 1
            end = until(json, '"\\', at)
            while json[end:].startswith("\\"):
                end = until(json, '"\\', end + 2)
        else:
            end = until(json, ",]} \n", at)
        found = json[at:end]
    out.value = found
