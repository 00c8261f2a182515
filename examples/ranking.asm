# Ranks the records of a form. The form holds a count and then so many records of two bytes, a score
# and a tag. The tags go to the output, highest score first; equal scores keep the order of their
# arrival. Each record is put into a sorted list behind all records whose score is not lower.
#: accepted
#: form 6 30'a' 90'b' 30'c' 70'd' 90'e' 10'f'
#: ended 6 335
#: output "bedacf"
# A budget may end the call anywhere: here two tags are out.
#: form 6 30'a' 90'b' 30'c' 70'd' 90'e' 10'f'
#: budget 300
#: running 300
#: output "be"
# No records and no list; ties in front of and behind another score; all scores equal.
#: form 0
#: ended 0 14
#: output
#: form 3 50'a' 50'b' 60'c'
#: ended 3 138
#: output "cab"
#: form 3 50"x" 50"y" 50"z"
#: ended 3 155
#: output "xyz"
# Scores have no sign: 200 is above 100.
#: form 2 100'l' 200'h'
#: ended 2 91
#: output "hl"
# A form that is cut, in a record and before its count.
#: form 2 9'x' 7
#: stopped 38 44
#: output
#: form
#: stopped 38 1

struct entry(r) {
    score: i8
    tag: i8
    next: *entry(r) in r
}

fn main() -> i32 {
    region list: entry(list)
    reg at, count, done, one: i32
    reg byte: i8
    reg more: i8
    reg first, fresh: *entry(list) in list

    byte = form[at]
    count = unsigned byte
    one = 1
    at = 1
    first = new                     # stands before the list and is never shown
next:
    more = done < count
    if more goto read
    one = show[list](first)
    return count
read:
    fresh = new
    more = fill[list](fresh, at)
    more = insert[list](first, fresh)
    at = at + one
    at = at + one
    done = done + one
    goto next
}

# Reads the two bytes of a record at a place of the form.
fn fill[r: entry(r)](fresh: *entry(r) in r, at: i32) -> i8 {
    reg byte: i8
    reg to: *i8 in r
    reg one: i32

    byte = form[at]
    to = fresh.score
    *to = byte
    one = 1
    at = at + one
    byte = form[at]
    to = fresh.tag
    *to = byte
    return byte
}

# Puts an entry behind the last one whose score is not lower.
fn insert[r: entry(r)](before: *entry(r) in r, fresh: *entry(r) in r) -> i8 {
    reg link, own: **entry(r) in r in r
    reg following: *entry(r) in r
    reg at: *i8 in r
    reg score, other, lower: i8
    reg there: i32

    at = fresh.score
    score = *at
step:
    link = before.next
    following = *link
    there = address following
    if there goto compare
    goto place
compare:
    at = following.score
    other = *at
    lower = other < score
    if lower goto place
    before = following
    goto step
place:
    own = fresh.next
    *own = following
    *link = fresh
    return score
}

# Writes the tags of a list, from its second entry on.
fn show[r: entry(r)](entry: *entry(r) in r) -> i32 {
    reg link: **entry(r) in r in r
    reg at: *i8 in r
    reg tag: i8
    reg there: i32

step:
    link = entry.next
    entry = *link
    there = address entry
    if there goto write
    return there
write:
    at = entry.tag
    tag = *at
    output tag
    goto step
}
