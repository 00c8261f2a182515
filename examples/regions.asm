# Several regions at once, for a picture of the memory (`rcm pages`): `main` fills a region of numbers
# and one of rows, frees every third number of a page by its address, which a check turns into a
# pointer again, and calls a function that works in both regions and in one of its own.
#: accepted
#: ended 90 2282

struct cell(r, s) {
    number: *i32 in r
    row: *[i8; 40] in s
}

fn main() -> i32 {
    region numbers: i32
    region rows: [i8; 40]
    reg number: *i32 in numbers
    reg row: *[i8; 40] in rows
    reg left, rest, one, three, place: i32

    left = 200
    one = 1
    three = 3
fill:
    number = new
    *number = left
    rest = left % three
    left = left - one
    if rest goto keep
    row = new
keep:
    if left goto fill
    place = 256
    left = 21
    rest = 12
holes:
    number = check place
    free number
    place = place + rest
    left = left - one
    if left goto holes
    left = 90
    left = pairs[numbers, rows](number, row, left)
    return left
}

# Makes so many cells in a region of its own, each with a number of the first region and a row of the
# second.
fn pairs[r: i32, s: [i8; 40]](number: *i32 in r, row: *[i8; 40] in s, count: i32) -> i32 {
    region cells: cell(r, s)
    reg cell: *cell(r, s) in cells
    reg to_number: **i32 in r in cells
    reg to_row: **[i8; 40] in s in cells
    reg made, one: i32
    reg more: i8

    one = 1
next:
    cell = new
    to_number = cell.number
    number = new
    *number = made
    *to_number = number
    to_row = cell.row
    *to_row = row
    made = made + one
    more = made < count
    if more goto next
    return made
}
