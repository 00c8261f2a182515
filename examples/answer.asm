# The smallest useful module: function 0 returns 42. It is document 01's worked example.
#: accepted 1 0 1 2
#: ended 42 2
# A budget of fewer steps leaves it running; with just enough it ends.
#: budget 0
#: running 0
#: budget 1
#: running 1
#: budget 2
#: ended 42 2

fn main() -> i32 {
    reg answer: i32

    answer = 42
    return answer
}
