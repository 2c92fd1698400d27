"""Programs beside bison and byacc."""
