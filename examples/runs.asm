# What a match of runs allows. Types are compared by their primitives where objects are made and where
# parts of them are pointed to: a pair and six bytes are the same six primitives, so that `new` and
# `free` take a pointer to either. Four of the five bytes of `rest` are a run of it too; nobody has
# declared them, so `rcm asm` warns.
#: accepted
#: ended 9 11

struct pair {
    key: i8
    rest: [i8; 5]
}

fn main() -> i32 {
    region pairs: pair
    reg whole: *pair in pairs
    reg bytes: *[i8; 6] in pairs
    reg most: *[i8; 4] in pairs
    reg item: *i8 in pairs
    reg value: i8
    reg sum: i32

    bytes = new                     # a pair, as six bytes
    free bytes
    whole = new
    most = whole.rest               # the first four of five
    item = most[2]
    *item = 9
    item = whole.rest[2]
    value = *item
    sum = unsigned value
    return sum
}
