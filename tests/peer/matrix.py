"""Matrices as listings and GLPK's MPS files give them, so that the two can be compared.

A matrix is a list of rows, each with its kind, its right side and its floor if it has one, and a dictionary of columns by name, each
with whether it is whole, its two bounds, and its coefficients by row number, the objective's under the number after the last row's.
All have the listing's order and signs.
"""
from decimal import Decimal


def listed(listing, name):
    """The matrix of a listing. The columns are named by what name gives for the fields of a `var` line."""
    rows, variables, columns = [], {}, {}
    for line in listing.splitlines():
        word, *fields = line.split('\t')
        if word == 'lp':
            counts = [int(field) for field in fields[:4]]
        elif word == 'row':
            rows.append((fields[1], Decimal(fields[2]), None))
        elif word == 'low':
            assert int(fields[0]) == len(rows) and rows[-1][0] == 'R'
            rows[-1] = (*rows[-1][:2], Decimal(fields[1]))
        elif word == 'var':
            variables[fields[0]] = name(fields)
            upper = None if fields[3] == 'inf' else Decimal(fields[3])
            columns[name(fields)] = {'whole': fields[1] == 'D', 'bounds': (Decimal(fields[2]), upper), 'rows': {}}
        elif word == 'col':
            columns[variables[fields[0]]]['rows'][int(fields[1])] = Decimal(fields[2])
    assert counts[1] == len(columns) and counts[3] == len(rows)
    assert counts[2] == sum(kind in 'LR' for kind, *_ in rows)
    assert all((kind == 'R') == (floor is not None) for kind, _, floor in rows)
    return rows, columns


def parted(matrix):
    """The matrix as an export has it: each floor is a row of its own after that of its ceiling. As `written` has it, such a row of
    `>=` is negated."""
    rows, at = [], {}
    for number, (kind, right, floor) in enumerate(matrix[0], 1):
        rows.append(('E' if kind == 'E' else 'L', right, None))
        at[number] = [(len(rows), 1)]
        if kind == 'R':
            rows.append(('L', -floor, None))
            at[number].append((len(rows), -1))
    at[len(matrix[0]) + 1] = [(len(rows) + 1, 1)]
    columns = {}
    for name, column in matrix[1].items():
        cells = {row: sign * value for number, value in column['rows'].items() for row, sign in at[number]}
        columns[name] = {**column, 'rows': cells}
    return rows, columns


def written(mps, minimum):
    """The matrix of a file that GLPK wrote. GLPK keeps a `>=` row and a minimum as written, and numbers rows in text order across
    kinds; the listing negates both, and puts the rows of `<=` and `>=` before those of `=`. So GLPK's rows are put into that order
    and negated here. A ranged row, with a floor and a ceiling, is for GLPK an `=` row with its floor as right side and a range. GLPK
    leaves out right sides and coefficients of 0, but gives an empty column one, with a comment behind ` $`; and it leaves out a
    bound that is 0 below or absent above."""
    section, kinds, right, ranges, columns, whole = None, {}, {}, {}, {}, False
    for line in mps.splitlines():
        if line.startswith('*'):
            continue
        fields = line.partition(' $')[0].split()
        if not line.startswith(' '):
            section = fields[0]
        elif section == 'ROWS':
            kinds[fields[1]] = fields[0]
        elif section == 'COLUMNS' and fields[1] == "'MARKER'":
            whole = fields[2] == "'INTORG'"
        elif section == 'COLUMNS':
            column = columns.setdefault(fields[0], {'whole': whole, 'bounds': (Decimal(0), None), 'rows': {}})
            column['rows'].update(zip(fields[1::2], map(Decimal, fields[2::2])))
        elif section == 'RHS':
            right.update(zip(fields[1::2], map(Decimal, fields[2::2])))
        elif section == 'RANGES':
            ranges.update(zip(fields[1::2], map(Decimal, fields[2::2])))
        elif section == 'BOUNDS':
            lower, upper = columns[fields[2]]['bounds']
            value = Decimal(fields[3]) if len(fields) > 3 else None
            columns[fields[2]]['bounds'] = {
                'UP': (lower, value), 'LO': (value, upper), 'FX': (value, value), 'PL': (lower, None)}[fields[0]]
    for name in ranges:
        assert kinds[name] == 'E'
        kinds[name] = 'R'
    order = [n for n, kind in kinds.items() if kind in 'LGR'] + [n for n, kind in kinds.items() if kind == 'E']
    objective = next(n for n, kind in kinds.items() if kind == 'N')
    number = {name: i for i, name in enumerate(order, 1)} | {objective: len(order) + 1}
    sign = {name: -1 if kind == 'G' or (kind == 'N' and minimum) else 1 for name, kind in kinds.items()}
    sides = {name: right.get(name, Decimal(0)) for name in order}
    rows = [('R', sides[n] + ranges[n], sides[n]) if n in ranges else ('E' if kinds[n] == 'E' else 'L', sign[n] * sides[n], None)
            for n in order]
    for column in columns.values():
        column['rows'] = {number[n]: sign[n] * value for n, value in column['rows'].items() if value != 0}
        column['rows'].setdefault(len(order) + 1, Decimal(0))
    return rows, columns


def difference(ours, theirs):
    """What differs between a listing's matrix and GLPK's; nothing if they are the same."""
    if ours[0] != theirs[0]:
        return 'other rows'
    if ours[1].keys() != theirs[1].keys():
        return 'other variables'
    for name, column in ours[1].items():
        if column != theirs[1][name]:
            return f'{name}: {column}, GLPK has {theirs[1][name]}'
    return None


def size(matrix):
    """How many kinds, sides, bounds and coefficients a matrix has."""
    return sum(2 + (floor is not None) for *_, floor in matrix[0]) + sum(2 + len(column['rows']) for column in matrix[1].values())
