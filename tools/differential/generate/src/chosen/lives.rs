//! Longer lives of one accumulator, and the inputs at which the original is known to differ.

use super::{ENDS, Each};

/// Emissions and the list of open group numbers, in a longer life of one accumulator.
pub fn lives(each: Each) {
    for end in ENDS {
        each(vec![
            format!("make grouped {end} bytes text:desc-last ignore-nulls"),
            "open [0 1 2 3 4 5 4294967295]".to_string(),
            "update values=[x61 null x62 x] key=[x6b x6b null x6b] groups=[0 0 1 2] total=4"
                .to_string(),
            "evaluate 1".to_string(),
            "update values=[x63 x64] key=[x7a x6b] groups=[0 1] total=3".to_string(),
            "merge values=[x65 null x66] key=[null x6b x6b] groups=[2 2 0] total=5 flags=[1 1 0]"
                .to_string(),
            "state 2".to_string(),
            "open [2 1 0 7]".to_string(),
            "evaluate 0".to_string(),
            "state all".to_string(),
            "update values=[x67] key=[x] groups=[0] total=1".to_string(),
            "state all".to_string(),
        ]);
        each(vec![
            format!("make grouped {end} record number:asc-last"),
            "update values=[_/_/_ null 1/-1/_] key=[1 1 1] groups=[0 1 2] total=3".to_string(),
            "update values=[9/9/9 null 2/2/2] key=[0 1 2] groups=[0 1 2] total=3".to_string(),
            "state 1".to_string(),
            "state all".to_string(),
        ]);
    }
}

/// Without groups: batches of several rows that tie, with nulls and flags, ordered already or not.
pub fn without_groups(each: Each) {
    for end in ENDS {
        for policies in [
            "",
            " ignore-nulls",
            " pre-ordered",
            " ignore-nulls pre-ordered",
        ] {
            each(vec![
                format!("make single {end} record number:asc-last{policies}"),
                "state".to_string(),
                "update values=[null null] key=[1 1]".to_string(),
                "state".to_string(),
                "update values=[null 1/_/_ 2/_/_ null] key=[1 2 2 3]".to_string(),
                "state".to_string(),
                "update values=[3/_/_ 4/_/_ null] key=[3 3 null]".to_string(),
                "state".to_string(),
                "merge values=[5/_/_ 6/_/_ null null] key=[null null null null] flags=[0 1 1 0]"
                    .to_string(),
                "state".to_string(),
                "merge values=[7/_/_] key=[null] flags=[0]".to_string(),
                "evaluate".to_string(),
            ]);
        }
    }
}

/// The inputs at which the original is known to differ, and those beside them at which it does not.
pub fn named(each: Each) {
    for end in ENDS {
        for policy in ["", " ignore-nulls"] {
            let make = format!("make single {end} number number:asc-last{policy} pre-ordered");
            each(vec![
                make.clone(),
                "update values=[] key=[]".to_string(),
                "state".to_string(),
                "update values=[10] key=[1]".to_string(),
                "update values=[] key=[]".to_string(),
                "state".to_string(),
            ]);
            for (held, brought) in [(9, 1), (1, 9), (5, 5)] {
                for (first, second) in
                    [("update", "merge"), ("merge", "update"), ("merge", "merge")]
                {
                    let call = |word: &str, value: i64, key: i64| {
                        let flags = if word == "merge" { " flags=[1]" } else { "" };
                        format!("{word} values=[{value}] key=[{key}]{flags}")
                    };
                    each(vec![
                        make.clone(),
                        call(first, 20, held),
                        call(second, 10, brought),
                        "state".to_string(),
                        "evaluate".to_string(),
                        "update values=[30] key=[7]".to_string(),
                        "state".to_string(),
                    ]);
                }
            }
        }
    }
}
