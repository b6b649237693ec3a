//! The cut rules place new nodes as the paper's first example says.

#[test]
fn p1_whole() {
    let words = [
        [0x0101000000000003, 0x10],
        [0x0201000000000000, 5],
        [0x0501000000010000, 0],
        [0x0201000000000000, 3],
        [0x0401000200030000, 0],
    ];
    let Some(rewritten) = original::numbered::simplify(&words.concat(), 5, 4) else {
        assert!(!original::PRESENT);
        return;
    };
    assert_eq!(rewritten.root, 6);
    assert_eq!(rewritten.nodes[..5], words);
    assert_eq!(rewritten.nodes[5..], [[0x0201000000000000, 2], [0x0501000000050000, 0]]);
}
