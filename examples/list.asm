# Recursion over a linked list in a caller's region. `main` owns the region and builds the list 10, 9,
# .., 1 in it; `sum` is given the region and calls itself for the rest of the list, so that eleven of
# its frames work in one region that none of them owns.
#: accepted
#: ended 55 199

struct node(r) {
    value: i32
    next: *node(r) in r
}

fn main() -> i32 {
    region list: node(list)
    reg count, one: i32
    reg head, fresh: *node(list) in list
    reg at: *i32 in list
    reg link: **node(list) in list in list
    reg more: i8
    reg ten: i32

    one = 1
    ten = 10
build:
    more = count < ten
    if more goto add
    count = sum[list](head)
    return count
add:
    count = count + one
    fresh = new
    at = fresh.value
    *at = count
    link = fresh.next
    *link = head
    head = fresh
    goto build
}

fn sum[r: node(r)](head: *node(r) in r) -> i32 {
    reg there, rest: i32
    reg link: **node(r) in r in r
    reg at: *i32 in r

    there = address head
    if there goto add
    return there
add:
    at = head.value
    there = *at
    link = head.next
    head = *link
    rest = sum[r](head)
    there = there + rest
    return there
}
