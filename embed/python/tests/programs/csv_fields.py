from yuglemit.build import Int, Map, Out, Text, byte_length, check, control, find, out, until


@control
def main(line: Text, fields: Out[Map[Int, Text]]) -> None:
    at, count = 0, 0
    while at <= byte_length(line):
        field = ""
        if line[at:].startswith('"'):
            is_open = 1
            while is_open == 1:
                at += 1
                if check(end := find(line, '"', at)):
                    field = field + line[at:end]
                    at = end + 1
                else:  # the rest of the line
                    field = field + line[at:]
                    at = byte_length(line)
                if line[at:].startswith('"'):
                    field = field + '"'
                else:
                    is_open = 0
        comma = until(line, ",", at)
        out.fields[count] = field + line[at:comma]
        count += 1
        at = comma + 1
