//! Numbers of the calls on bytes, taken apart.
use cocklesway::bytes::Packed;
use cocklesway::{Refusal, Relation, Which};

#[test]
fn answers_are_counts_or_relations_on_a_floor() {
    let most = Packed::from(0xFFFF_0400_0000)
        .corners()
        .expect("it is answered");
    assert_eq!((most.count, most.floor), (1024, 65_535));
    let relations = [Relation::Apart, Relation::Touching, Relation::Overlapping];
    for (number, relation) in (0..).zip(relations) {
        let packed = Packed::from(0x0102_0000_0000 + (number << 16));
        let standing = packed.standing().expect("it is answered");
        assert_eq!((standing.relation, standing.floor), (relation, 258));
    }
}

#[test]
fn refusals_carry_what_the_table_says() {
    let (first, shape) = (Which::First, Which::Second);
    let (edge, corner) = (0x102, 0x3FF);
    let told = [
        (0x0101, Refusal::Count { shape: first }),
        (0x0201, Refusal::Count { shape }),
        (0x0202, Refusal::Corners { shape }),
        (0x0203, Refusal::Range { shape }),
        (
            0x03FF_0102_0204,
            Refusal::Side {
                shape,
                edge,
                corner,
            },
        ),
        (0x0205, Refusal::Start { shape }),
        (0x06, Refusal::LargeAnswer),
        (0x07, Refusal::FarAnswer),
        (0x08, Refusal::Room),
        (0x0D, Refusal::Floors),
    ];
    for (number, refusal) in told {
        let packed = Packed::from(number);
        assert_eq!(packed.number(), number);
        assert_eq!(packed.corners(), Err(refusal));
        assert_eq!(packed.standing(), Err(refusal));
        assert_eq!(refusal.number(), number & 0xFF);
        let blamed = refusal.shape().map_or(0, |shape| 1 + shape as u64);
        assert_eq!(blamed, number >> 8 & 0xFF);
    }
}

#[test]
fn any_number_is_taken_apart() {
    for byte in 0..=u64::from(u8::MAX) {
        for rest in [0, u64::MAX << 8, 0x5A5A_5A5A_5A5A_5A00] {
            let packed = Packed::from(rest | byte);
            assert_eq!(packed.corners().is_ok(), byte == 0);
            let number = packed.standing().map_or_else(Refusal::number, |_| 0);
            assert_eq!(number, byte);
        }
    }
}
