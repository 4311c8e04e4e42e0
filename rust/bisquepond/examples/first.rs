use bisquepond::{Layout, Reason, function};

fn main() -> bisquepond::Result<()> {
    // Two legacy headers.
    let mut file = [0, 1, 0, 4, 0x0A, 0x80, 1, 0, 0, 0, 0, 0x0A, 1, 2, 3, 4].repeat(2);
    let mut table = function::read_functions(&file, Layout::Legacy16, 0, 2)?;
    for row in &table {
        println!("function {}: size {}", row.id(), row.size());
    }

    file[20] = 11; // the size of function 1
    for id in table.refresh(&file, 20..21)? {
        let row = &table[id as usize];
        println!("function {id} was read again: size {}", row.size());
    }

    let refusal = function::read_functions(&file, Layout::Legacy16, 0, 3).unwrap_err();
    assert_eq!((refusal.reason(), refusal.place), (Reason::Cut, 2));
    println!("{refusal}");
    Ok(())
}
