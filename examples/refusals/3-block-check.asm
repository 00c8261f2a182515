# Refusal 3: the last four bytes of a block are its check; here they are wrong.
#: refused 3 0

fn main() -> i32 {
    reg r: i32
    return r
}

file check 0 = 1
