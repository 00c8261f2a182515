# Stop 39: the output has 4,096 bytes; the 4,097th does not fit.
#: accepted
#: stopped 39 8193

fn main() -> i32 {
    reg byte: i8

next:
    output byte
    goto next
}
