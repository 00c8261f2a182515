# Ranking the records of a form with ties broken by arrival, many times over: each round reads all
# records (a count, then a score and a tag each), puts them into a sorted list in a region of its own
# and writes the first eight tags to the output. `rank` is as in examples/ranking.asm.
#: accepted

struct entry(r) {
    score: i8
    tag: i8
    next: *entry(r) in r
}

fn main() -> i32 {
    reg left, one, sum, part: i32

    left = 500
    one = 1
next:
    part = rank()
    sum = sum + part
    left = left - one
    if left goto next
    return sum
}

fn rank() -> i32 {
    region list: entry(list)
    reg at, count, done, one: i32
    reg byte: i8
    reg more: i8
    reg first, fresh: *entry(list) in list

    byte = form[at]
    count = unsigned byte
    one = 1
    at = 1
    first = new                     # stands before the list and is never shown
next:
    more = done < count
    if more goto read
    one = show[list](first)
    return count
read:
    fresh = new
    more = fill[list](fresh, at)
    more = insert[list](first, fresh)
    at = at + one
    at = at + one
    done = done + one
    goto next
}

# Reads the two bytes of a record at a place of the form.
fn fill[r: entry(r)](fresh: *entry(r) in r, at: i32) -> i8 {
    reg byte: i8
    reg to: *i8 in r
    reg one: i32

    byte = form[at]
    to = fresh.score
    *to = byte
    one = 1
    at = at + one
    byte = form[at]
    to = fresh.tag
    *to = byte
    return byte
}

# Puts an entry behind the last one whose score is not lower.
fn insert[r: entry(r)](before: *entry(r) in r, fresh: *entry(r) in r) -> i8 {
    reg link, own: **entry(r) in r in r
    reg following: *entry(r) in r
    reg at: *i8 in r
    reg score, other, lower: i8
    reg there: i32

    at = fresh.score
    score = *at
step:
    link = before.next
    following = *link
    there = address following
    if there goto compare
    goto place
compare:
    at = following.score
    other = *at
    lower = other < score
    if lower goto place
    before = following
    goto step
place:
    own = fresh.next
    *own = following
    *link = fresh
    return score
}

# Writes the tags of the first eight entries after this one.
fn show[r: entry(r)](entry: *entry(r) in r) -> i32 {
    reg link: **entry(r) in r in r
    reg at: *i8 in r
    reg tag: i8
    reg left, one: i32

    left = 8
    one = 1
step:
    link = entry.next
    entry = *link
    at = entry.tag
    tag = *at
    output tag
    left = left - one
    if left goto step
    return left
}
