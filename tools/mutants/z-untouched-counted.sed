# Request 4: the rows without an entry in the column counted as built.
# file src/tableau.rs
/if other\.variable != leaving && other\.entries\[column\] != 0 {/i\
            built += u32::from(other.entries[column] == 0);
