# Refusal 4: a record that names nothing; here a jump to instruction 9 of a function that has two.
#: refused 4 3

fn main() -> i32 {
    reg r: i32
    goto 9
    return r
}
