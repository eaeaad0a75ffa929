"""The matrices of crates/trials_validity, and what document 01 says of each, by its words alone.

Prints what the program has to write, which is its file stdout: the refusal's number, 0 where the matrix is valid, and the row, 0 where none is named.
It shares nothing with the crates."""

HIGH = 1 << 63


def bits(row):
    return {j for j in range(64) if row >> j & 1}


def judged(rows):
    """1 to 4, each over all rows before the next."""
    n = len(rows)
    if n > 64:
        return 1, 0
    faults = {
        2: [i for i in range(n) if max(bits(rows[i]), default=-1) >= n],
        3: [i for i in range(n) if i in bits(rows[i])],
    }
    for number in (2, 3):
        if faults[number]:
            return number, min(faults[number])
    one_sided = [i for i in range(n) if any(i not in bits(rows[j]) for j in bits(rows[i]))]
    return (4, min(one_sided)) if one_sided else (0, 0)


def with_rows(n, **rows):
    """n rows that are 0 but for those named, as r0=1."""
    return [rows.get(f"r{i}", 0) for i in range(n)]


# At the ends of the range: no row, 64 rows, 65 rows, and the highest bit of a word.
AT_THE_ENDS = [[], with_rows(64), with_rows(65), with_rows(64, r63=HIGH), with_rows(64, r0=HIGH, r63=1), with_rows(64, r0=HIGH)]

# Each refusal, and the order in which they are given; last the five-cycle.
IN_ORDER = [[2], [1], [2, 0], [0, 1], [2, 1], [0, 0, 8], [2, 2, 8], [2, 2, 1], [4, 0, 2], [18, 5, 10, 20, 9]]

if __name__ == "__main__":
    for number, row in map(judged, AT_THE_ENDS + IN_ORDER):
        print(number, "row", row)
