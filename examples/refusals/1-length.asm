# Refusal 1: a file has 1 to 64 blocks of 512 bytes; this one is cut.
#: refused 1 0

fn main() -> i32 {
    reg r: i32
    return r
}

file length = 500
