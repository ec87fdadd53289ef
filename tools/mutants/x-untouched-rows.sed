# Step 4 for every row, touched or not.
# file src/tableau.rs
s/self\.touched(column)\.any(/self.rows.iter().any(/
