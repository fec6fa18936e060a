"""The modules of the scripts in `bin` and `bench`."""
