# Request 8: the highest-numbered variable replaced first.
# file src/draft.rs
s/self\.waiting()\.iter()\.position(/self.waiting().iter().rposition(/
