//! A controller in Rust: where may a cart stand beside a bed, and how near may it come?
use cocklesway::{Refusal, Relation, Shape, clearance, grow, merge, relation};

const BED: Shape = Shape::new(&[[-1000, -450], [1000, -450], [1000, 450], [-1000, 450]], 3);
const CART: Shape = Shape::new(
    &[[-200, -250], [300, -250], [500, 0], [300, 250], [-200, 250]],
    3,
);
const PLACE: Shape = Shape::new(&[[-1550, 0]], 3);

fn main() -> Result<(), Refusal> {
    let mut out = [[0; 2]; 16];
    let grown = grow(BED, CART, &mut out)?;
    println!("grown bed on floor {}: {:?}", grown.floor, grown.corners);

    let may_stand = relation(PLACE, grown)?.relation == Relation::Apart;
    println!("the cart may stand there: {may_stand}");
    println!("{} mm from it", clearance(PLACE, grown)?.rounded());

    let upstairs = Shape::new(CART.corners, 4);
    match merge(BED, upstairs, &mut [[0; 2]; 16]) {
        Ok(_) => unreachable!("the floors differ"),
        Err(refusal) => println!("{refusal}"),
    }
    Ok(())
}
