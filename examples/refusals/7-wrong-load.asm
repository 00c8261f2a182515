# Refusal 7: an instruction breaks its rule; here an i32 is loaded through a pointer to i16.
#: refused 7 7

fn main() -> i32 {
    region r: i16
    reg value: i32
    reg p: *i16 in r

    p = new
    value = *p
    return value
}
