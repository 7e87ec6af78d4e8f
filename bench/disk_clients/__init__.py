"""What bench/clients is made of: a module for each of its parts, and what they share (server, wire, table)."""
