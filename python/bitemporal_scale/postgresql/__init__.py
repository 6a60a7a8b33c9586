"""Scripts of `bitemporal` as SQL of PostgreSQL, and servers to run it on."""
