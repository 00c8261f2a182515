# Stop 36: a divisor that is zero.
#: accepted
#: stopped 36 2

fn main() -> i32 {
    reg value, zero: i32

    value = 5
    value = value / zero
    return value
}
