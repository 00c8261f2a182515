# Refusal 6: a result that names a local region would outlive it. `make` returns a pointer into a
# region that closes with its return.
#: refused 6 5

fn main() -> i32 {
    reg r: i32
    return r
}

fn make() -> *i32 in own {
    region own: i32
    reg p: *i32 in own

    p = new
    return p
}
