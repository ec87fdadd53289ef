# Request 2: 65 points allowed.
# file src/fleet.rs
s/> MOST_POINTS {/> MOST_POINTS + 1 {/
