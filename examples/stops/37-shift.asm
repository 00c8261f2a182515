# Stop 37: a shift by the width or more; an i8 has 8 bits.
#: accepted
#: stopped 37 3

fn main() -> i32 {
    reg value, bits: i8
    reg r: i32

    value = 1
    bits = 8
    value = value << bits
    r = unsigned value
    return r
}
