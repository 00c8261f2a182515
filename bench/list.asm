# A linked structure built and walked in a region, many times: each round opens a region of its own,
# builds a list of 400 nodes in 13 pages, walks it three times and hands the pages back.
#: accepted

struct node(r) {
    value: i32
    next: *node(r) in r
}

fn main() -> i32 {
    reg left, one, sum, part: i32

    left = 600
    one = 1
next:
    part = round(left)
    sum = sum + part
    left = left - one
    if left goto next
    return sum
}

fn round(seed: i32) -> i32 {
    region list: node(list)
    reg head, fresh: *node(list) in list
    reg at: *i32 in list
    reg link: **node(list) in list in list
    reg left, one, sum, part: i32

    left = 400
    one = 1
build:
    fresh = new
    at = fresh.value
    *at = seed
    seed = seed + one
    link = fresh.next
    *link = head
    head = fresh
    left = left - one
    if left goto build
    left = 3
again:
    part = walk[list](head)
    sum = sum + part
    left = left - one
    if left goto again
    return sum
}

fn walk[r: node(r)](node: *node(r) in r) -> i32 {
    reg at: *i32 in r
    reg link: **node(r) in r in r
    reg value, sum, there: i32

step:
    at = node.value
    value = *at
    sum = sum + value
    link = node.next
    node = *link
    there = address node
    if there goto step
    return sum
}
