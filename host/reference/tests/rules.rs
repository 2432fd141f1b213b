//! Both sides of every scene rule: the fault with its offset, in both editions, with a mask lent and with none.

use reference::rules;

#[test]
fn both_sides_of_every_rule() {
    for (mask_lent, edition) in [(false, 0), (true, 0), (false, 1), (true, 1)] {
        let cases = generate::rules::cases(mask_lent, edition);
        for case in &cases {
            let found = rules::scene(&case.bytes, mask_lent).map(|_| ()).err();
            let expected =
                case.fault.map(|fault| reference::Fault { code: fault.code, draw: fault.draw, offset: fault.offset });
            assert_eq!(found, expected, "{}, edition {edition}, mask lent: {mask_lent}", case.name);
        }
        assert!(cases.len() > 10_000, "{} cases", cases.len());
    }
}
