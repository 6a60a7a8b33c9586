"""A server of stores: PostgreSQL's protocol (version 3) over one session of `bitemporal_file`."""
