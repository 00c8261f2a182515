# Refusal 8: the last instruction of a function is a jump or a return; here the code runs off its end.
#: refused 8 3

fn main() -> i32 {
    reg r: i32
    r = 1
}
