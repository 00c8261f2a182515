# Refusal 5: a struct that holds itself outside pointers has no size. The place is the first term
# that asks for it.
#: refused 5 0

struct box {
    inner: box
    value: i32
}

fn main() -> i32 {
    reg r: i32
    return r
}
