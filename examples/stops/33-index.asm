# Stop 33: an index that is not below the array's count.
#: accepted
#: stopped 33 3

fn main() -> i32 {
    region r: [i8; 10]
    reg row: *[i8; 10] in r
    reg item: *i8 in r
    reg i: i32

    row = new
    i = 10
    item = row[i]
    return i
}
