# Step 4 for the exchanged row alone.
# file src/tableau.rs
s/self\.touched(column)\.any(/self.lowest_violated_row().map(|own| \&self.rows[own]).into_iter().any(/
