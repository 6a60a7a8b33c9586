"""Scripts over more rows than one run takes: in slices of days, or on servers of PostgreSQL."""
