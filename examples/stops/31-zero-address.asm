# Stop 31: a load through a pointer that is zero. Every register starts as zero.
#: accepted
#: stopped 31 1

fn main() -> i32 {
    region r: i32
    reg p: *i32 in r
    reg value: i32

    value = *p
    return value
}
