# Stop 34: no page is left. 64 i32 objects fit a page and 63 pages can be granted, so the 4,033rd
# object is one too many.
#: accepted
#: stopped 34 8065
#: budget 8064
#: running 8064

fn main() -> i32 {
    region r: i32
    reg p: *i32 in r

again:
    p = new
    goto again
}
