//! Writes what the program `cases` must write.

fn main() {
    print!("{}", wemsteky_tests::cases::text());
}
